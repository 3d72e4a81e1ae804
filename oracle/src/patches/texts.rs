//! A second reading of document 01, "Strings": units, identifiers, the hash, and where a value goes.

use crate::image::layout::{word, IDENTIFIER, KINDS};
use crate::image::reading::{Reading, Stored};

/// The bytes of a string of an admitted image.
pub fn bytes<'a>(reading: &Reading<'a>, string: &Stored) -> &'a [u8] {
    let storage = reading.places().storage;
    &reading.image[(storage + string.start) as usize..(storage + string.end) as usize]
}

pub fn units(reading: &Reading, string: &Stored) -> Vec<u16> {
    let bytes = bytes(reading, string);
    if string.wide {
        bytes.chunks(2).map(|pair| u16::from_le_bytes([pair[0], pair[1]])).collect()
    } else {
        bytes.iter().map(|byte| (*byte).into()).collect()
    }
}

/// The lowest id of a string with the units of a value.
pub fn lowest(reading: &Reading, value: &str) -> Option<usize> {
    let wanted: Vec<u16> = value.encode_utf16().collect();
    reading.strings().iter().position(|string| units(reading, string) == wanted)
}

/// For each string whether it is an identifier: "kinds cover the ids in order".
pub fn identifiers(reading: &Reading) -> Vec<bool> {
    let kinds = reading.places().kinds as usize;
    let words = (0..reading.count(KINDS) as usize).map(|i| word(reading.image, kinds + 4 * i));
    let run =
        |word: u32| std::iter::repeat_n(word & IDENTIFIER != 0, (word & !IDENTIFIER) as usize);
    words.flat_map(run).collect()
}

/// "per UTF-16 unit, add it, add the sum shifted left 10, xor with itself shifted right 6".
pub fn hash(value: &str) -> u32 {
    let step = |sum: u32, unit: u16| {
        let sum = sum.wrapping_add(unit.into());
        let sum = sum.wrapping_add(sum << 10);
        sum ^ sum >> 6
    };
    value.encode_utf16().fold(0, step)
}

/// "start < other end and other start < end".
fn overlap(a: &Stored, b: &Stored) -> bool {
    a.start < b.end && b.start < a.end
}

/// Another entry overlaps: of all, or only of those of one width.
pub fn is_overlapped(strings: &[Stored], id: usize, of: fn(&Stored) -> bool) -> bool {
    let mut others = strings.iter().enumerate().filter(|(i, other)| *i != id && of(other));
    others.any(|(_, other)| overlap(&strings[id], other))
}

/// "entry narrow, value ASCII, byte lengths equal, and no other entry overlaps".
pub fn fits_in_place(strings: &[Stored], id: usize, value: &str) -> bool {
    let own = &strings[id];
    !own.wide
        && value.is_ascii()
        && own.end - own.start == value.len() as u64
        && !is_overlapped(strings, id, |_| true)
}

/// Where the tail starts after a rebuild.
pub fn rebuilt_tail(reading: &Reading, strings: &[Stored], id: usize, value: &str) -> u64 {
    let (mut storage, mut pairs) = (0, 0);
    for (i, string) in strings.iter().enumerate() {
        let size = string.end - string.start;
        let (count, size) = if i == id {
            let units = value.encode_utf16().count() as u64;
            (units, if value.is_ascii() { units } else { 2 * units })
        } else {
            (if string.wide { size / 2 } else { size }, size)
        };
        if storage >= 0x80_0000 || count >= 255 {
            pairs += 1;
        }
        storage += size;
    }
    (reading.places().overflow + 8 * pairs + storage).next_multiple_of(4)
}
