//! The image that comes of a plan: tables and storage, zeros to a multiple of 4, the tail with its places moved, file length and
//! footer.

use hbc_decomp::write::footer::rehash_footer;

use super::places::Tables;
use super::reading::Plan;
use super::slip::Slip::*;
use crate::image::layout::*;
use crate::image::maker::put_record;
use crate::job::patch::{finish, hash};

impl Plan<'_> {
    pub fn image(&self) -> Vec<u8> {
        let given = self.asked.image.to_vec();
        if self.is_kept() {
            let is_finished = !self.packer.slips(NothingSharedNotFinished);
            return if is_finished { finish(given) } else { given };
        }
        let tables = self.packer.tables(&self.strings, &self.places);
        let storage = self.storage();
        let mut front = self.parts.front(&tables.smalls, &tables.pairs, &storage);
        let words = tables.smalls.len() + tables.pairs.len();
        front.truncate(self.parts.small + 4 * words + storage.len());
        let padding = if self.packer.slips(PaddingNotZero) { 0xff } else { 0 };
        front.resize(self.tail() as usize, padding);
        self.put_words(&mut front, &tables);
        self.put_hashes(&mut front);
        if self.packer.slips(KindsMerged) {
            self.merge_kinds(&mut front);
        }
        let delta = (front.len() as u64).wrapping_sub(self.parts.tail as u64);
        let mut new = self.parts.with_tail(front, !self.packer.slips(PointerKeptWhereNotMoved));
        self.put_places(&mut new, delta);
        self.finished(new)
    }

    /// The bytes of each first string at its place, and zeros between them.
    fn storage(&self) -> Vec<u8> {
        let filler = if self.packer.slips(GapNotZero) { 0xff } else { 0 };
        let mut storage = vec![filler; self.places.size];
        for (said, start) in self.strings.iter().zip(&self.places.stored) {
            let places = storage.iter_mut().skip(start.unwrap_or(usize::MAX));
            places.zip(said.bytes).for_each(|(place, byte)| *place = *byte);
        }
        if self.packer.slips(StrayKept) {
            storage.extend(self.stray());
        }
        storage
    }

    /// The words at 56 and 60, where a mistake has others.
    fn put_words(&self, front: &mut [u8], tables: &Tables) {
        let given = self.asked.image;
        let firsts = (0..self.strings.len()).filter(|id| self.places.is_first(*id));
        match self.slip() {
            Some(CountKept) => set_word(front, OVERFLOWS, word(given, OVERFLOWS)),
            Some(CountOfFirsts) => {
                let firsts = firsts.filter(|id| tables.smalls[*id] >> 24 == 255);
                set_word(front, OVERFLOWS, firsts.count() as u32);
            }
            Some(SizeKept) => set_word(front, STORAGE, word(given, STORAGE)),
            Some(SizeUnshared) => {
                set_word(front, STORAGE, self.unshared().size as u32);
            }
            Some(SizePadded) => {
                let words = tables.smalls.len() + tables.pairs.len();
                let padded = front.len() - self.parts.small - 4 * words;
                set_word(front, STORAGE, padded as u32);
            }
            _ => {}
        }
    }

    /// Every hash slot stays as stored; a mistake works some out anew, or takes another's.
    fn put_hashes(&self, front: &mut [u8]) {
        let rank = |id: usize| self.parts.identifiers[..id].iter().filter(|is| **is).count();
        let slot = |id: usize| self.parts.hashes + 4 * rank(id);
        for id in (0..self.strings.len()).filter(|id| self.strings[*id].identifier) {
            let owner = self.places.owners[id].id;
            let is_owned = owner != id && self.strings[owner].identifier;
            match self.slip() {
                Some(HashesRecomputed) => set_word(front, slot(id), hash(self.strings[id].units())),
                Some(HashesOfSharersRecomputed) if owner != id => {
                    set_word(front, slot(id), hash(self.strings[id].units()));
                }
                Some(HashesOfOwners) if is_owned => {
                    let word = word(self.asked.image, slot(owner));
                    set_word(front, slot(id), word);
                }
                _ => {}
            }
        }
    }

    /// A mistake writes kinds as the fewest runs.
    fn merge_kinds(&self, front: &mut Vec<u8>) {
        let flags: Vec<bool> = self.strings.iter().map(|said| said.identifier).collect();
        let run = |run: &[bool]| (if run[0] { IDENTIFIER } else { 0 }) | run.len() as u32;
        let runs: Vec<u32> = flags.chunk_by(|a, b| a == b).map(run).collect();
        let kinds = self.asked.reading().places().kinds as usize;
        set_word(front, KINDS, runs.len() as u32);
        front.splice(kinds..self.parts.hashes, runs.iter().flat_map(|run| run.to_le_bytes()));
    }

    /// The places in records, large headers and of the debug information, where a mistake has others.
    fn put_places(&self, new: &mut [u8], delta: u64) {
        let (layout, given) = (self.asked.layout, self.asked.image);
        let debug = word(given, layout.debug());
        match self.slip() {
            Some(DebugKept) => set_word(new, layout.debug(), debug),
            Some(DebugZeroMoved) if debug == 0 => set_word(new, layout.debug(), delta as u32),
            _ => {}
        }
        for function in self.asked.reading().functions() {
            let at = HEADER + function.id * layout.record();
            let [old, mut number] = [given, &*new].map(|image| number(image, at, layout.record()));
            let header = function.header.map(|(start, _)| start);
            let moved = header.map(|start| start.wrapping_add(delta) as usize);
            match (self.slip(), moved) {
                (Some(RecordsKept), _) => number = old,
                (Some(HeaderWordsKept), Some(moved)) => {
                    set_word(new, moved, function.body.0 as u32);
                }
                (Some(ModernBitCleared), Some(_)) if layout.is_modern() => number &= !(1 << 24),
                (Some(InfoZeroMoved), None) if function.info == 0 => {
                    let info = layout.info();
                    number = info.map_or(number, |info| info.set(number, delta & info.most()));
                }
                (Some(InfoZeroMoved), Some(moved)) if function.info == 0 => {
                    let info = layout.large_info();
                    info.into_iter().for_each(|info| set_word(new, moved + info, delta as u32));
                }
                _ => {}
            }
            put_record(layout, new, function.id, number);
        }
    }

    fn finished(&self, mut new: Vec<u8>) -> Vec<u8> {
        let length = new.len() as u32;
        match self.slip() {
            Some(FooterKept) => set_word(&mut new, FILE_LENGTH, length),
            Some(LengthKept) => rehash_footer(&mut new).unwrap(),
            Some(FooterBeforeLength) => {
                rehash_footer(&mut new).unwrap();
                set_word(&mut new, FILE_LENGTH, length);
            }
            _ => return finish(new),
        }
        new
    }
}
