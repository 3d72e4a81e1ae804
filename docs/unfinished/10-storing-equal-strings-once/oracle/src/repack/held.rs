//! Each answer is held to what document 02, No. 10, says of it.
//! - "Reading it gives the same strings, flags, hashes and bodies as before": the image that comes out is admitted, is read anew,
//!   and all that is no table, no storage and no place stands with its value. And the Rust, which reads all strings for a
//!   rebuild, makes one image of both: of what was given and of what came out.
//! - "strings of the same width and the same units share the place of the lowest id among them, everything else packed in id
//!   order": asked of the image that came out.
//! - "never longer than the plain rebuild of the same strings in the same mode": than that of `job/patch.rs`, which shares nothing.
//!   So that is refused with the same number, or with one that comes before, where this is refused with 11 to 13.
//! - "repacking it again in that mode returns the same bytes".
//! - "a shared entry that isn't empty overlaps, so patching it rebuilds": the judge of `patches` makes such a patch, in plain mode
//!   the Rust on a file that is parsed anew, and it has to be the rebuilt image, in which no two strings share a byte.

use std::collections::BTreeMap;

use super::reading::{Asked, Packer, WORDS};
use crate::image::layout::*;
use crate::image::reading::{Function, Reading, Stored};
use crate::job::packing::{Mode, Packing};
use crate::job::patch::{self as job, Parts};
use crate::leaves::record::{self, set_pointer};
use crate::patches::judgement::{judge, Judgement};
use crate::patches::rust::{self, Rust};
use crate::patches::{texts, Kind, Patch};

/// Whether an answer is as the request says, with so many words lent, and what the output then holds.
pub fn is_shown(asked: &Asked, words: usize, out: &[u8], answer: Result<u32, u32>) -> bool {
    let refusal = asked.reading().refusal();
    let is_short = words < WORDS * asked.count();
    match answer {
        Err(number @ 1..=6) => number == refusal,
        _ if refusal != 0 => false,
        Err(13) if is_short => true,
        Err(number) => unshared(asked, out.len()).is_err_and(|first| first <= number),
        Ok(length) => {
            let made = Asked { image: &out[..length as usize], ..*asked };
            is_as_before(asked, &made)
                && is_packed(&made)
                && is_no_longer(asked, &made)
                && is_final(&made)
                && is_rebuilt_by_patches(&made)
        }
    }
}

// ---- "Reading it gives the same strings, flags, hashes and bodies as before."

fn is_as_before(asked: &Asked, made: &Asked) -> bool {
    let [old, new] = [asked, made].map(Asked::reading);
    if new.refusal() != 0 {
        return false;
    }
    let functions = || old.functions().zip(new.functions());
    strings(&old) == strings(&new)
        && texts::identifiers(&old) == texts::identifiers(&new)
        && hashes(&old) == hashes(&new)
        && functions().all(|(before, after)| body(&old, &before) == body(&new, &after))
        && set_back(&new, &old) == set_back(&old, &old)
        && is_one_for_the_rust(&old, &new)
}

fn strings<'a>(reading: &Reading<'a>) -> Vec<(bool, &'a [u8])> {
    let strings = reading.strings();
    strings.iter().map(|string| (string.wide, texts::bytes(reading, string))).collect()
}

fn hashes<'a>(reading: &Reading<'a>) -> &'a [u8] {
    let places = reading.places();
    &reading.image[places.hashes as usize..places.small as usize]
}

fn body<'a>(reading: &Reading<'a>, function: &Function) -> &'a [u8] {
    &reading.image[function.body.0 as usize..function.body.1 as usize]
}

/// The image but for its tables, storage, file length and footer, and with each place moved as far as the tail has moved from
/// that of another; where it has none, 0 stays.
fn set_back(reading: &Reading, to: &Reading) -> Vec<u8> {
    let (layout, [from, to]) = (reading.layout, [reading, to].map(|reading| reading.places().tail));
    let back = |place: u64| if place == 0 { 0 } else { place - from + to };
    let mut image = reading.image.to_vec();
    for function in reading.functions() {
        let at = HEADER + function.id * layout.record();
        let mut number = number(&image, at, layout.record());
        match function.header {
            Some((header, _)) => {
                if !layout.is_modern() {
                    number = record::OFFSET.set(number, 0);
                }
                number = set_pointer(layout.pointer(), number, back(header));
                set_word(&mut image, header as usize, back(function.body.0) as u32);
                if let Some(info) = layout.large_info() {
                    set_word(&mut image, header as usize + info, back(function.info) as u32);
                }
            }
            None => {
                number = record::OFFSET.set(number, back(function.body.0));
                number = layout.info().map_or(number, |info| info.set(number, back(function.info)));
            }
        }
        crate::image::maker::put_record(layout, &mut image, function.id, number);
    }
    let debug = back(word(&image, layout.debug()).into());
    set_word(&mut image, layout.debug(), debug as u32);
    [FILE_LENGTH, OVERFLOWS, STORAGE].iter().for_each(|at| set_word(&mut image, *at, 0));
    let (small, tail, footer) = (reading.places().small, from, reading.footer());
    [&image[..small as usize], &image[tail as usize..footer as usize]].concat()
}

/// Both come to be the same where the Rust sets one string of each to one value by a rebuild, for which it reads all others: the
/// first one, and the last.
fn is_one_for_the_rust(old: &Reading, new: &Reading) -> bool {
    let count = old.count(STRINGS);
    [0, count.saturating_sub(1)].into_iter().filter(|id| *id < count).all(|id| {
        let [old, new] = [old, new].map(|reading| rust::rebuilt(reading, id, "x"));
        matches!(old, Rust::Made(_)) && old == new
    })
}

// ---- Where the strings stand.

/// Each first one of those that are alike starts where the one before it ends, but for one byte 0 before a wide one due at an
/// odd place in even mode; the others have its place; and storage ends with the last one.
fn is_packed(made: &Asked) -> bool {
    let reading = made.reading();
    let (strings, stored) = (strings(&reading), reading.strings());
    let storage = reading.places().storage;
    let mut next = 0;
    for (id, place) in stored.iter().enumerate() {
        let first = strings.iter().position(|other| *other == strings[id]).unwrap();
        if first < id {
            if place.start != stored[first].start {
                return false;
            }
            continue;
        }
        let is_odd = made.mode == Mode::Even && place.wide && next % 2 == 1;
        let before = (storage + next) as usize..(storage + place.start) as usize;
        if made.image.get(before) != Some(&[0][..usize::from(is_odd)]) {
            return false;
        }
        next = place.end;
    }
    next == reading.count(STORAGE).into()
}

// ---- "never longer than the plain rebuild of the same strings in the same mode".

/// The rebuild that shares nothing, with so much room.
fn unshared(asked: &Asked, room: usize) -> Result<Vec<u8>, u32> {
    let packing = Packing { mode: asked.mode, slip: None };
    Parts::of(asked.layout, asked.image).rebuilt(&BTreeMap::new(), packing, room as u64)
}

fn is_no_longer(asked: &Asked, made: &Asked) -> bool {
    // One that is refused is longer than a limit, and this is not.
    unshared(asked, usize::MAX).map_or(true, |rebuilt| made.image.len() <= rebuilt.len())
}

/// "repacking it again in that mode returns the same bytes"
fn is_final(made: &Asked) -> bool {
    let mut work = vec![1; WORDS * made.count()];
    let mut again = vec![1; made.image.len()];
    let answer = Packer(None).repack(made, &mut work, &mut again);
    answer == Ok(made.image.len() as u32) && again == made.image
}

// ---- "Later patches follow 01: a shared entry that isn't empty overlaps, so patching it rebuilds."

/// The first string that shares its place, and the last one.
fn is_rebuilt_by_patches(made: &Asked) -> bool {
    let stored = made.reading().strings();
    let has_bytes = |id: usize| stored[id].start < stored[id].end;
    let shares = |id: usize, other: usize| {
        id != other && has_bytes(other) && stored[id].start == stored[other].start
    };
    let is_shared =
        |id: &usize| has_bytes(*id) && (0..stored.len()).any(|other| shares(*id, other));
    let mut shared = (0..stored.len()).filter(is_shared);
    let ends = [shared.next(), shared.next_back()];
    ends.into_iter().flatten().all(|id| is_rebuilt(made, id, &stored[id]))
}

/// A value of as many bytes, which would fit in place were the string alone.
fn is_rebuilt(made: &Asked, id: usize, own: &Stored) -> bool {
    let Asked { layout, mode, image } = *made;
    let value = vec![b'x'; (own.end - own.start) as usize];
    let (kind, room, id) = (Kind::ById, usize::MAX, id as u32);
    let patch = Patch { kind, mode, layout, id, old: &[], new: &value, image, room };
    let packing = Packing { mode, slip: None };
    let rebuilt = job::Patch::Rebuilt { id, value: value.clone(), packing };
    let rebuilt = job::patch(layout, image, room as u64, &rebuilt);
    let is_apart = |image: &Vec<u8>| {
        let strings = Reading { layout, image, slip: None }.strings();
        strings.windows(2).all(|pair| pair[0].end <= pair[1].start)
    };
    // Nor has the Rust, asked itself, another way.
    let Judgement { answer, departure } = judge(&patch);
    answer == rebuilt && rebuilt.map_or(true, |image| is_apart(&image) && departure.is_none())
}
