//! The Rust's patches, each on an image that is parsed anew; and what the Rust does where it departs from
//! document 01, computed once more from the words of the departure.

use std::panic::{catch_unwind, AssertUnwindSafe};

use hbc_decomp::error::Result;
use hbc_decomp::file::BytecodeFile;
use hbc_decomp::opcode::BytecodeFormat;
use hbc_decomp::write::patch::{
    patch_function_bytes, patch_string_by_id, patch_string_replace, PatchOptions,
};
use hbc_decomp::write::serialize::finalize_raw_image;

use super::parsed::parsed;
use super::texts;
use crate::image::layout::*;
use crate::image::maker::put_record;
use crate::image::reading::Reading;
use crate::leaves::record::{self, set_pointer};

#[derive(PartialEq)]
pub enum Rust {
    Made(Vec<u8>),
    /// It answered with an error.
    Failed,
    /// It stopped with a panic.
    Stopped,
}

fn run(file: BytecodeFile, patch: impl FnOnce(&mut BytecodeFile) -> Result<Vec<u8>>) -> Rust {
    let mut file = file;
    match catch_unwind(AssertUnwindSafe(|| patch(&mut file))) {
        Ok(Ok(image)) => Rust::Made(image),
        Ok(Err(_)) => Rust::Failed,
        Err(_) => Rust::Stopped,
    }
}

fn format() -> BytecodeFormat {
    BytecodeFormat { definitions: vec![] }
}

pub fn by_id(reading: &Reading, id: u32, value: &str) -> Rust {
    let options = PatchOptions::default();
    run(parsed(reading), |file| patch_string_by_id(file, &format(), id, value, &options))
}

pub fn by_value(reading: &Reading, old: &str, new: &str) -> Rust {
    let options = PatchOptions::default();
    run(parsed(reading), |file| patch_string_replace(file, &format(), old, new, &options))
}

pub fn body(reading: &Reading, id: u32, body: &[u8]) -> Rust {
    run(parsed(reading), |file| patch_function_bytes(file, id, body))
}

/// The Rust's rebuild, whatever it would have chosen: it rebuilds for every entry that its parser calls
/// UTF-16, and reads the entry itself from the tables again.
pub fn rebuilt(reading: &Reading, id: u32, value: &str) -> Rust {
    let mut file = parsed(reading);
    file.strings[id as usize].is_utf16 = true;
    let options = PatchOptions::default();
    run(file, |file| patch_string_by_id(file, &format(), id, value, &options))
}

/// The image with its file length and footer.
pub fn finalized(image: Vec<u8>) -> Rust {
    Rust::Made(finalize_raw_image(image).unwrap())
}

/// The bytes of the value over those of the entry, and the hash of an identifier.
pub fn written_in_place(reading: &Reading, id: usize, value: &str) -> Rust {
    let places = reading.places();
    let mut image = reading.image.to_vec();
    let at = (places.storage + reading.strings()[id].start) as usize;
    image[at..at + value.len()].copy_from_slice(value.as_bytes());
    let identifiers = texts::identifiers(reading);
    if identifiers[id] {
        let rank = identifiers[..id].iter().filter(|is| **is).count();
        set_word(&mut image, places.hashes as usize + 4 * rank, texts::hash(value));
    }
    finalized(image)
}

/// A body in the place of another, though something is in the way: what lies at or past the old one's end
/// moves, the body's own offset too if it was empty; the debug offset moves wherever it lies; a size or an
/// offset that does not fit is cut to its field.
pub fn forced(reading: &Reading, id: usize, body: &[u8]) -> Rust {
    let layout = reading.layout;
    let (start, end) = reading.function(id).body;
    let mut image = reading.image[..start as usize].to_vec();
    image.extend(body);
    image.extend(&reading.image[end as usize..]);
    if body.len() as u64 == end - start {
        return finalized(image);
    }
    let shift = |place: u64| (place + body.len() as u64).wrapping_sub(end - start);
    let moved = |place: u64| if place >= end { shift(place) } else { place };
    for function in reading.functions() {
        let size = layout.record();
        let mut record = number(&image, HEADER + function.id * size, size);
        if let Some((pointer, _)) = function.header {
            let at = moved(pointer) as usize;
            if at as u64 != pointer {
                // A pointer that moves is written whole: the legacy one has 25 bits of place for 16.
                let cleared =
                    if layout.is_modern() { record } else { record::OFFSET.set(record, 0) };
                record = set_pointer(layout.pointer(), cleared, at as u64);
            }
            // An empty body can lie within the words: what the Rust reads is then no longer what was there.
            let word = |place: usize| u64::from(word(&image, at + place));
            let (begin, info) = (word(0), layout.large_info().map_or(0, word));
            set_word(&mut image, at, moved(begin) as u32);
            if function.id == id {
                set_word(&mut image, at + layout.large_size(), body.len() as u32);
            }
            if let Some(place) = layout.large_info() {
                set_word(&mut image, at + place, if info == 0 { 0 } else { moved(info) as u32 });
            }
        } else {
            record = record::OFFSET.set(record, moved(function.body.0));
            if function.id == id {
                record = layout.size().set(record, body.len() as u64);
            }
            if let Some(info) = layout.info().filter(|_| function.info != 0) {
                record = info.set(record, moved(function.info));
            }
        }
        put_record(layout, &mut image, function.id, record);
    }
    let debug = u64::from(word(&image, layout.debug()));
    if debug != 0 {
        set_word(&mut image, layout.debug(), shift(debug) as u32);
    }
    finalized(image)
}
