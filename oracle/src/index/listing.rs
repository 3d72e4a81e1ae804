//! A second reading of the listing: document 01, "Programs", and document 02, No. 5, for the last word of an `s` line.

use crate::image::layout::{word, FUNCTIONS};
use crate::image::reading::{Function, Reading};
use crate::image::walk::Located;

/// The lines of an admitted image.
pub fn lines(reading: &Reading, strings: &[Located]) -> Vec<String> {
    let (length, functions) = (reading.image.len(), reading.count(FUNCTIONS));
    let first = format!("image {length} {} {functions}\n", strings.len());
    let strings = strings.iter().enumerate().map(|(id, string)| string_line(reading, id, string));
    [first].into_iter().chain(strings).chain(reading.functions().map(function_line)).collect()
}

/// "`s`: id, n or w, s or i (identifier), unit count, units as four lower-case hex digits each, joined, `-` if none"; "a
/// last field: the stored hash slot in eight hex digits, or `-` for a plain string".
fn string_line(reading: &Reading, id: usize, string: &Located) -> String {
    let width = if string.wide { 'w' } else { 'n' };
    let kind = if string.identifier { 'i' } else { 's' };
    let shown: String =
        (0..string.units).map(|i| format!("{:04x}", unit(reading, string, i))).collect();
    let units = if shown.is_empty() { "-" } else { &shown };
    let hashes = reading.places().hashes as usize;
    let slot = |rank: usize| format!("{:08x}", word(reading.image, hashes + 4 * rank));
    let slot = string.rank.map_or("-".into(), slot);
    format!("s {id} {width} {kind} {} {units} {slot}\n", string.units)
}

fn unit(reading: &Reading, string: &Located, i: u64) -> u32 {
    if string.wide {
        word(reading.image, (string.start + 2 * i) as usize) & 0xffff
    } else {
        word(reading.image, (string.start + i) as usize) & 0xff
    }
}

/// "`f`: id, o overflowed or p plain, body start, size".
fn function_line(function: Function) -> String {
    let kind = if function.header.is_some() { 'o' } else { 'p' };
    let (start, end) = function.body;
    format!("f {} {kind} {start} {}\n", function.id, end - start)
}
