//! Small images, each told by its strings, and the words that an index holds before a call.

use crate::image::layout::*;
use crate::image::reading::Reading;
use crate::patches::odd::packed;
use crate::patches::small::Bare;

/// How the kind words cover the strings.
#[derive(Clone, Copy)]
pub enum Kinds {
    /// One for each string.
    Single,
    /// One for each run of strings of one kind.
    Longest,
    /// The same, with runs of 0 before, between and behind them.
    Empty,
}

pub const KINDS: [Kinds; 3] = [Kinds::Single, Kinds::Longest, Kinds::Empty];

/// An image of strings, one behind the other: n or w, in capitals an identifier, and the count. Behind it may stand @ and
/// an offset in storage, where a string has no bytes of its own, and + for an overflow pair that its count does not ask
/// for. _ and a count is no string: so many ASCII bytes of storage, for strings with an offset. It has a small and a large
/// record, and hash slots that all differ.
pub fn image(layout: Layout, strings: &str, kinds: Kinds) -> Vec<u8> {
    // Its own string goes: what is kept are the functions.
    let mut bare = Bare { strings: vec![], storage: vec![], ..packed(layout.0, "n0") };
    for string in strings.split_whitespace() {
        let id = bare.strings.len();
        let (kind, rest) = string.split_at(1);
        let wide = kind.eq_ignore_ascii_case("w");
        let (rest, needless) = rest.strip_suffix('+').map_or((rest, false), |rest| (rest, true));
        let (count, place) = rest.split_once('@').unwrap_or((rest, ""));
        let count = count.parse().unwrap();
        let offset = place.parse().unwrap_or(bare.storage.len());
        if place.is_empty() {
            bare.storage.extend(bytes(id, wide, count));
        }
        if kind != "_" {
            bare.strings.push((wide, kind.as_bytes()[0].is_ascii_uppercase(), offset, count));
            bare.needless.extend(needless.then_some(id));
        }
    }
    let identifiers = bare.strings.iter().filter(|string| string.1).count() as u32;
    bare.hashes = (1..=identifiers).map(|i| (i * i).wrapping_mul(0x00ab_cdef)).collect();
    bare.kinds = kind_words(&bare, kinds);
    bare.image()
}

/// No two strings say the same, and in a wide one are surrogates too.
fn bytes(id: usize, wide: bool, count: usize) -> Vec<u8> {
    let narrow = |i: usize| vec![(b' ' as usize + (7 * id + i) % 95) as u8];
    let unit = |i: usize| vec![(0x80 + 5 * id + i) as u8, (0xd7 + i) as u8];
    (0..count).flat_map(|i| if wide { unit(i) } else { narrow(i) }).collect()
}

fn kind_words(bare: &Bare, kinds: Kinds) -> Option<Vec<u32>> {
    let flags: Vec<bool> = bare.strings.iter().map(|string| string.1).collect();
    let run = |run: &[bool]| (if run[0] { IDENTIFIER } else { 0 }) | run.len() as u32;
    let runs = flags.chunk_by(|a, b| a == b).map(run);
    match kinds {
        Kinds::Single => None,
        Kinds::Longest => Some(runs.collect()),
        Kinds::Empty => {
            let around = runs.flat_map(|run| [0, IDENTIFIER, run, IDENTIFIER]);
            Some(around.chain([0, 0]).collect())
        }
    }
}

pub fn count_of(image: &[u8]) -> usize {
    word(image, STRINGS) as usize
}

/// The image, changed so that it is refused with a number.
pub fn broken(layout: Layout, whole: Vec<u8>, number: u32) -> Vec<u8> {
    let places = Reading { layout, image: &whole, slip: None }.places();
    let mut image = whole;
    match number {
        1 => image.truncate(147),
        2 => image[7] ^= 0x10,
        3 => set_word(&mut image, STORAGE, u32::MAX),
        4 => image[places.kinds as usize + 3] ^= 0x80,
        5 => image[places.storage as usize] = 0x80,
        6 => set_word(&mut image, layout.debug(), 1),
        _ => {}
    }
    image
}

/// Words that no image of these calls has in its index, and no two alike.
pub fn garbage(length: usize) -> Vec<u32> {
    (0..length as u32).map(|i| 0xa5c3_8001 ^ i.wrapping_mul(0x0101_0101)).collect()
}
