//! Wrong patchers: string patches with one mistake each, by which it comes to matter in which order they are made. They
//! take an image apart as the second reading does, and with no mistake they make its image.

use std::collections::{BTreeMap, BTreeSet};

use hbc_decomp::write::footer::rehash_footer;

use super::packing::Mode;
use super::pass::Edit;
use super::patch::{hash, Parts};
use crate::image::layout::{set_word, word, Layout, FILE_LENGTH, IDENTIFIERS, STORAGE};
use crate::image::reading::Reading;

#[derive(Clone, Copy, PartialEq, Debug)]
pub enum Slip {
    /// The hash goes to the slot of the call's place among the calls, not to that of its rank.
    SlotByPlace,
    /// In place no slot is written; a rebuild works out all of them, stale ones too.
    HashesByRebuildAlone,
    /// The footer is made before the hash is written.
    FooterBeforeHash,
    /// The file length is that of the image at hand.
    LengthBefore,
    /// The patched strings are packed behind all others.
    PackedBehind,
    /// Storage keeps its size where strings become shorter.
    NeverShorter,
    /// The bytes that no string has, where they stood before one.
    GapsKept,
    /// A patched string that had an overflow pair keeps one.
    OwnPairKept,
    /// Strings of the same width and bytes share a place.
    EqualShared,
    /// The zeros before the tail stay there, before the new ones.
    PaddingKept,
    /// A large pointer is written where it moves alone.
    PointerWhereMoved,
    /// In place though other strings have these bytes.
    OverlapNotTested,
    /// In place where the value is shorter, too.
    ShorterInPlace,
    /// In place at the place of the image that the first call was given.
    FirstPlaces,
}

pub const SLIPS: [Slip; 14] = [
    Slip::SlotByPlace,
    Slip::HashesByRebuildAlone,
    Slip::FooterBeforeHash,
    Slip::LengthBefore,
    Slip::PackedBehind,
    Slip::NeverShorter,
    Slip::GapsKept,
    Slip::OwnPairKept,
    Slip::EqualShared,
    Slip::PaddingKept,
    Slip::PointerWhereMoved,
    Slip::OverlapNotTested,
    Slip::ShorterInPlace,
    Slip::FirstPlaces,
];

/// A call that is one of several, one after the other.
pub struct Turn<'a> {
    pub layout: Layout,
    pub mode: Mode,
    /// How many calls came before it.
    pub place: usize,
    /// The image that the first of them was given.
    pub first: &'a [u8],
    pub image: &'a [u8],
    pub edits: Vec<Edit<'a>>,
}

/// The image that comes of strings and values that there are, in a room for all. None where the image at hand is none,
/// which a mistake in the call before can make it.
pub fn patched(turn: &Turn, slip: Option<Slip>) -> Option<Vec<u8>> {
    let reading = Reading { layout: turn.layout, image: turn.image, slip: None };
    if reading.refusal() != 0 {
        return None;
    }
    let text = |value: &[u8]| std::str::from_utf8(value).ok().map(str::to_owned);
    let values = turn.edits.iter().map(|(id, value)| Some((*id as usize, text(value)?)));
    let (values, parts) = (values.collect::<Option<_>>()?, Parts::of(turn.layout, turn.image));
    Wrong { turn, parts, values, slip }.run()
}

struct Wrong<'a> {
    turn: &'a Turn<'a>,
    parts: Parts<'a>,
    values: BTreeMap<usize, String>,
    slip: Option<Slip>,
}

/// A string that goes to a place in storage.
struct Put {
    wide: bool,
    bytes: Vec<u8>,
    has_pair: bool,
    start: usize,
}

impl Wrong<'_> {
    fn slips(&self, slip: Slip) -> bool {
        self.slip == Some(slip)
    }

    fn run(&self) -> Option<Vec<u8>> {
        let in_place = self.values.iter().all(|(id, value)| self.fits(*id, value));
        let mut new = if in_place { self.written_over()? } else { self.rebuilt() };
        if self.slips(Slip::FooterBeforeHash) {
            new = self.finished(new);
            self.put_hashes(&mut new, in_place);
            return Some(new);
        }
        self.put_hashes(&mut new, in_place);
        Some(self.finished(new))
    }

    fn finished(&self, mut new: Vec<u8>) -> Vec<u8> {
        let length = if self.slips(Slip::LengthBefore) { self.turn.image.len() } else { new.len() };
        set_word(&mut new, FILE_LENGTH, length as u32);
        rehash_footer(&mut new).unwrap();
        new
    }

    // ---- In place.

    fn fits(&self, id: usize, value: &str) -> bool {
        let own = self.parts.texts[id];
        let (length, is_narrow) = (own.end - own.start, !own.wide && value.is_ascii());
        match self.slip {
            Some(Slip::OverlapNotTested) => is_narrow && value.len() == length,
            // What has the old length would fit.
            Some(Slip::ShorterInPlace) if value.len() < length && !self.has_pair(id) => {
                is_narrow && self.parts.fits_in_place(id, &vec![b'a'; length])
            }
            _ => self.parts.fits_in_place(id, value.as_bytes()),
        }
    }

    fn written_over(&self) -> Option<Vec<u8>> {
        let first = Parts::of(self.turn.layout, self.turn.first);
        let mut new = self.turn.image.to_vec();
        for (id, value) in &self.values {
            let parts = if self.slips(Slip::FirstPlaces) { &first } else { &self.parts };
            let start = parts.storage + parts.texts[*id].start;
            new.get_mut(start..start + value.len())?.copy_from_slice(value.as_bytes());
            if self.slips(Slip::ShorterInPlace) && !self.has_pair(*id) {
                new[self.parts.small + 4 * id + 3] = value.len() as u8;
            }
        }
        Some(new)
    }

    fn has_pair(&self, id: usize) -> bool {
        word(self.turn.image, self.parts.small + 4 * id) >> 24 == 255
    }

    // ---- By a rebuild.

    fn rebuilt(&self) -> Vec<u8> {
        let puts = self.puts();
        let end = puts.iter().map(|put| put.start + put.bytes.len()).max().unwrap_or(0);
        let least = word(self.turn.image, STORAGE) as usize;
        let mut storage =
            vec![0; if self.slips(Slip::NeverShorter) { end.max(least) } else { end }];
        let (mut smalls, mut pairs) = (vec![], vec![]);
        for put in &puts {
            storage[put.start..put.start + put.bytes.len()].copy_from_slice(&put.bytes);
            let count = put.bytes.len() / if put.wide { 2 } else { 1 };
            let (mut field, mut length) = (put.start, count);
            if put.has_pair || count >= 255 {
                (field, length) = (pairs.len() / 2, 255);
                pairs.extend([put.start as u32, count as u32]);
            }
            smalls.push((length << 24 | field << 1) as u32 | u32::from(put.wide));
        }
        let mut front = self.parts.front(&smalls, &pairs, &storage);
        if self.slips(Slip::PaddingKept) {
            let padding = self.parts.tail - self.parts.storage - least;
            front.resize(front.len() + padding, 0);
        }
        self.parts.with_tail(front, !self.slips(Slip::PointerWhereMoved))
    }

    /// The strings in the order of their ids, each with its place.
    fn puts(&self) -> Vec<Put> {
        let mut puts: Vec<Put> = (0..self.parts.texts.len()).map(|id| self.put(id)).collect();
        let mut order: Vec<usize> = (0..puts.len()).collect();
        if self.slips(Slip::PackedBehind) {
            order.sort_by_key(|id| self.values.contains_key(id));
        }
        let (mut due, mut seen) = (0, BTreeMap::new());
        for id in order {
            let found = seen.get(&(puts[id].wide, puts[id].bytes.clone()));
            if let Some(start) = found.filter(|_| self.slips(Slip::EqualShared)) {
                puts[id].start = *start;
                continue;
            }
            due += if self.slips(Slip::GapsKept) { self.gap_before(id) } else { 0 };
            due += usize::from(self.turn.mode == Mode::Even && puts[id].wide && due % 2 == 1);
            puts[id].start = due;
            due += puts[id].bytes.len();
            seen.insert((puts[id].wide, puts[id].bytes.clone()), puts[id].start);
        }
        puts
    }

    fn put(&self, id: usize) -> Put {
        let (text, start) = (self.parts.texts[id], 0);
        let has_pair = self.slips(Slip::OwnPairKept) && self.has_pair(id);
        match self.values.get(&id) {
            None => {
                let bytes = self.parts.bytes(&text).to_vec();
                Put { wide: text.wide, bytes, has_pair: false, start }
            }
            Some(value) if value.is_ascii() => {
                Put { wide: false, bytes: value.clone().into_bytes(), has_pair, start }
            }
            Some(value) => {
                let bytes = value.encode_utf16().flat_map(u16::to_le_bytes).collect();
                Put { wide: true, bytes, has_pair, start }
            }
        }
    }

    /// The bytes between the end of the string before and the start of this one, in the image at hand.
    fn gap_before(&self, id: usize) -> usize {
        let end = if id == 0 { 0 } else { self.parts.texts[id - 1].end };
        self.parts.texts[id].start.saturating_sub(end)
    }

    // ---- The hash slots.

    fn put_hashes(&self, new: &mut [u8], in_place: bool) {
        let identifiers = &self.parts.identifiers;
        let edited: BTreeSet<usize> =
            self.values.keys().copied().filter(|id| identifiers[*id]).collect();
        match self.slip {
            Some(Slip::HashesByRebuildAlone) if in_place => {}
            Some(Slip::HashesByRebuildAlone) => {
                let all = identifiers.iter().enumerate().filter(|(_, is)| **is);
                for (rank, (id, _)) in all.enumerate() {
                    let stored = || hash(self.parts.units(&self.parts.texts[id]));
                    let value = self.values.get(&id);
                    let hash = value.map_or_else(stored, |value| hash(value.encode_utf16()));
                    set_word(new, self.parts.hashes + 4 * rank, hash);
                }
            }
            Some(Slip::SlotByPlace) => {
                let slots = word(self.turn.image, IDENTIFIERS) as usize;
                for (slot, id) in (self.turn.place..slots).zip(edited) {
                    let hash = hash(self.values[&id].encode_utf16());
                    set_word(new, self.parts.hashes + 4 * slot, hash);
                }
            }
            _ => edited.iter().for_each(|id| self.parts.put_hash(new, *id, &self.values[id])),
        }
    }
}
