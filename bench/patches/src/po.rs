//! Translators' files: `bench-patches ours|theirs po|po-places SHAPE COUNT PAIRS ROOM REPEATS` reads one into an image, with
//! values that have 5 bytes more each, or as many. In an image with strings that are all alike one pair is for all of them.
//! ROOM: ample as a caller lends it, exact as the longest image takes it, short by a byte, so that the last single patch is
//! refused. theirs is the judge's second reading of the pass over these edits. `bench-patches ours|theirs extract SHAPE COUNT
//! REPEATS` writes one from an image.

use super::pass::List;
use super::{more, sum};
use crate::image::{image, shape};
use oracle::image::layout::Layout;
use oracle::image::reading::Reading;
use oracle::job::packing::Mode;
use oracle::patches::texts;
use oracle::po::{writing, Call, Lent};

extern "C" {
    fn nepuladrim_read_po(
        image: *const u8,
        length: usize,
        layout: u8,
        mode: u8,
        file: *const u8,
        file_length: usize,
        text: *mut u8,
        text_length: usize,
        ends: *mut u32,
        ends_length: usize,
        work: *mut u32,
        work_length: usize,
        out: *mut u8,
        room: usize,
    ) -> u64;
    fn nepuladrim_write_po(
        image: *const u8,
        length: usize,
        layout: u8,
        work: *mut u32,
        work_length: usize,
        out: *mut u8,
        room: usize,
    ) -> u64;
}

const REFUSED: u64 = 1 << 32;
/// As much as the front door lends.
const AMPLE: usize = 67_108_864;

/// Our answer: a length, or 2^32 and the number of a refusal.
fn ours(call: &mut Call) -> u64 {
    let (image, length, layout) = (call.image.as_ptr(), call.image.len(), call.layout);
    let Lent { text, ends, work, out } = &mut call.lent;
    let (words, word_count) = (work.as_mut_ptr(), work.len());
    let (to, room) = (out.as_mut_ptr(), out.len());
    unsafe {
        match &call.file {
            None => nepuladrim_write_po(image, length, layout, words, word_count, to, room),
            Some(file) => nepuladrim_read_po(
                image,
                length,
                layout,
                call.mode,
                file.as_ptr(),
                file.len(),
                text.as_mut_ptr(),
                text.len(),
                ends.as_mut_ptr(),
                ends.len(),
                words,
                word_count,
                to,
                room,
            ),
        }
    }
}

/// What was made, or the number in place of it.
fn made(call: &mut Call) -> Result<Vec<u8>, u64> {
    match ours(call) {
        number if number >= REFUSED => Err(number - REFUSED),
        length => Ok(call.lent.out[..length as usize].to_vec()),
    }
}

fn call(file: Option<Vec<u8>>, layout: u8, mode: Mode, image: &[u8], room: usize) -> Call {
    let (mode, image, lent) = ((mode == Mode::Even).into(), image.to_vec(), Lent::default());
    Call { file, layout, mode, image, lent }.lending(room)
}

/// Edits of strings with values of their own, or one for all that are alike.
fn edits(reading: &Reading, is_alike: bool, pairs: usize, more: usize) -> List {
    if !is_alike {
        return List::of(reading, pairs, more);
    }
    let one = List::of(reading, 1, more);
    let count = reading.strings().len();
    List {
        ids: (0..count as u32).collect(),
        text: one.text.repeat(count),
        ends: (1..=count).map(|i| (i * one.text.len()) as u32).collect(),
    }
}

/// The file that asks for them.
fn file(reading: &Reading, list: &List, is_alike: bool) -> Vec<u8> {
    let strings = reading.strings();
    let mut file = String::new();
    let mut start = 0;
    for (id, end) in list.ids.iter().zip(&list.ends) {
        let old = String::from_utf16(&texts::units(reading, &strings[*id as usize])).unwrap();
        let new = std::str::from_utf8(&list.text[start..*end as usize]).unwrap();
        file += &format!("#: menu.js:{id}\nmsgid \"{old}\"\nmsgstr \"{new}\"\n\n");
        start = *end as usize;
        if is_alike {
            break;
        }
    }
    file.into_bytes()
}

/// The length of the last image, where every edit is of a narrow string and has so many bytes more: it is the longest one.
fn last_length(reading: &Reading, list: &List, more: usize) -> usize {
    let places = reading.places();
    let storage = places.storage as usize + list.ids.len() * more;
    let size = oracle::image::layout::word(reading.image, oracle::image::layout::STORAGE) as usize;
    reading.image.len() - places.tail as usize + (storage + size).next_multiple_of(4)
}

pub fn read(words: &[String]) {
    let number = |i: usize| -> usize { words[i].parse().unwrap() };
    let (shape, count, is_alike) = (shape(&words[3]), number(4), words[3] == "alike");
    let image = image(&shape, count, count, more(&words[3]));
    let reading = Reading { layout: Layout(shape.layout), image: &image, slip: None };
    let longer = if words[2] == "po-places" { 0 } else { 5 };
    let list = edits(&reading, is_alike, number(5), longer);
    let file = file(&reading, &list, is_alike);
    let exact = last_length(&reading, &list, longer);
    let room = match words[6].as_str() {
        "ample" => AMPLE,
        "exact" => exact,
        _ => exact - 1,
    };
    // As for one patch, both runs start with the same and end with a sum.
    let mut call = call(Some(file), shape.layout, Mode::Plain, &image, room);
    let end = match (words[1].as_str(), words[7].as_str()) {
        ("ours", "1") => made(&mut call),
        (_, "0" | "1") if room < exact => Err(13),
        (_, "0") => Ok(image.clone()),
        ("theirs", "1") => Ok(list.theirs(&reading, Mode::Plain)),
        _ => panic!("ours or theirs, and 0 or 1 repeats"),
    };
    tell(&image, end);
}

pub fn write(words: &[String]) {
    let (shape, count): (_, usize) = (shape(&words[3]), words[4].parse().unwrap());
    let image = image(&shape, count, count, more(&words[3]));
    let mut call = call(None, shape.layout, Mode::Plain, &image, 64 * count);
    // Also for no repeats, so that there is as much to sum up.
    let theirs = writing::written(&call, None);
    let end = match (words[1].as_str(), words[5].as_str()) {
        ("ours", "1") => made(&mut call),
        (_, "0" | "1") => Ok(theirs),
        _ => panic!("ours or theirs, and 0 or 1 repeats"),
    };
    tell(&image, end);
}

fn tell(image: &[u8], end: Result<Vec<u8>, u64>) {
    match end {
        Ok(made) => println!("{} {}", image.len(), sum(&made)),
        Err(number) => println!("{} refused with {number}", image.len()),
    }
}

/// What 400 pairs make of images with 1,000 strings, and one pair of 300 that are alike, is what as many single patches make of
/// them, in both modes; and what is written is what the second reading writes.
pub fn compare() {
    let cases = [("texts", 1_000, 5), ("texts", 1_000, 0), ("alike", 300, 5), ("alike", 300, 0)];
    for (name, count, longer) in cases {
        let (shape, is_alike) = (shape(name), name == "alike");
        let image = image(&shape, count, count, more(name));
        let reading = Reading { layout: Layout(shape.layout), image: &image, slip: None };
        let list = edits(&reading, is_alike, 400, longer);
        for mode in [Mode::Plain, Mode::Even] {
            let file = Some(file(&reading, &list, is_alike));
            let room = last_length(&reading, &list, longer) + count;
            let ours = made(&mut call(file, shape.layout, mode, &image, room));
            assert!(ours == Ok(list.steps(&reading, mode)), "{name}, {longer}");
        }
    }
    for name in ["texts", "alike", "mixed", "names", "odd"] {
        let shape = shape(name);
        let image = image(&shape, 1_000, 1_000, more(name));
        let mut call = call(None, shape.layout, Mode::Plain, &image, 64_000);
        assert!(made(&mut call) == Ok(writing::written(&call, None)), "{name}, written");
    }
    println!("bench: 8 files read are as many single patches, the Rust's in plain mode; 5 are written as they should be");
}
