//! A second reading of document 02, No. 9: how many table entries locating a string visits. The tables are
//! gone over as the Rust's `locate_string_bytes` does, through a reader that notes the place of each word
//! that it reads; an entry is visited where one of its words was read. And of document 02, No. 5: the rank of
//! an identifier, counted among the flags of all strings, laid out one by one.

use std::collections::BTreeSet;

use super::layout::*;
use super::reading::{Reading, Slip, Small};

/// What is known of a string, and how many small entries and overflow pairs were visited to find it. A plain
/// string has no rank.
pub struct Located {
    pub start: u64,
    pub bytes: u64,
    pub units: u64,
    pub wide: bool,
    pub identifier: bool,
    pub small: usize,
    pub pairs: usize,
    pub rank: Option<usize>,
}

/// The bytes of an image, and the places of the words that were read.
struct Noted<'a> {
    image: &'a [u8],
    places: Vec<u64>,
}

impl Noted<'_> {
    fn word(&mut self, at: u64) -> u32 {
        self.places.push(at);
        word(self.image, at as usize)
    }

    /// How many entries of a table were read. Each is one word or two.
    fn entries(&self, from: u64, to: u64, size: u64) -> usize {
        let read = self.places.iter().filter(|place| (from..to).contains(place));
        read.map(|place| (place - from) / size).collect::<BTreeSet<_>>().len()
    }
}

/// String `id` of an admitted image, or 7.
pub fn locate(reading: &Reading, id: u32) -> Result<Located, u32> {
    let strings = reading.count(STRINGS);
    if id >= strings && !reading.slips(Slip::AbsentIdLocated) {
        return Err(7);
    }
    let places = reading.places();
    let mut tables = Noted { image: reading.image, places: vec![] };
    let mut overflows = 0;
    let mut found = (false, 0, 0);
    for i in 0..=u64::from(id.min(strings)) {
        let own = i == u64::from(id);
        if own && reading.slips(Slip::OwnEntryPassedOver) {
            break;
        }
        let small = Small(tables.word(places.small + 4 * i));
        found = (small.is_wide(), small.offset(), small.length());
        if small.overflows() {
            let pair = places.overflow + 8 * overflows;
            if own || !reading.slips(Slip::OwnPairOnly) {
                found = (small.is_wide(), tables.word(pair), tables.word(pair + 4));
            }
            overflows += 1;
        } else if reading.slips(Slip::PairOfEachEntry) {
            tables.word(places.overflow + 8 * overflows);
        }
    }
    let (wide, offset, units) = found;
    let flags = flags(reading);
    Ok(Located {
        start: places.storage + u64::from(offset),
        bytes: u64::from(units) * if wide { 2 } else { 1 },
        units: units.into(),
        wide,
        identifier: is_identifier(&flags, id as usize),
        small: tables.entries(places.small, places.overflow, 4),
        pairs: tables.entries(places.overflow, places.storage, 8),
        rank: rank(reading, &flags, id as usize),
    })
}

/// "kinds cover the ids in order": for each string whether it is an identifier.
fn flags(reading: &Reading) -> Vec<bool> {
    let kinds = reading.places().kinds as usize;
    let words = (0..reading.count(KINDS) as usize).map(|k| word(reading.image, kinds + 4 * k));
    let run = |word: u32| vec![word & IDENTIFIER != 0; (word & !IDENTIFIER) as usize];
    words.flat_map(run).collect()
}

/// False also for an id that is located by mistake.
fn is_identifier(flags: &[bool], id: usize) -> bool {
    flags.get(id).is_some_and(|flag| *flag)
}

/// The number of identifiers with a lower id, or none.
fn rank(reading: &Reading, flags: &[bool], id: usize) -> Option<usize> {
    if !is_identifier(flags, id) && !reading.slips(Slip::PlainStringRanked) {
        return None;
    }
    let mut lower = &flags[..id.min(flags.len())];
    if reading.slips(Slip::RankOfRun) {
        let in_run = lower.iter().rev().take_while(|flag| **flag).count();
        lower = &lower[..lower.len() - in_run];
    }
    let counts = |flag: &&bool| **flag || reading.slips(Slip::PlainStringsCounted);
    let counted = lower.iter().filter(counts).count();
    Some(counted + usize::from(reading.slips(Slip::RankOfNext)))
}
