//! A second reading of "everything else packed in id order, in either mode of No. 2", document 02, No. 10: where each string
//! goes, and the words of the tables that say so.

use super::reading::Packer;
use super::sharing::{Owner, Said};
use super::slip::Slip::*;
use crate::job::packing::Mode;

/// The first offset that a small entry does not hold, and the first length.
const FAR: usize = 0x80_0000;
const LONG: usize = 255;

/// Where the strings go.
pub struct Places {
    pub owners: Vec<Owner>,
    /// Where each starts.
    pub starts: Vec<usize>,
    /// Where its own bytes are put, if they are.
    pub stored: Vec<Option<usize>>,
    /// Where it would have started, had it come for itself, and with no gap.
    dues: Vec<usize>,
    /// The size of storage.
    pub size: usize,
}

/// How far packing has come: where the next string is due, the gaps up to there, and the last one where nothing stands behind it.
#[derive(Default)]
struct Cursor {
    due: usize,
    gaps: usize,
    last_gap: usize,
}

/// The words of the small table, and two for each overflow entry.
#[derive(Default)]
pub struct Tables {
    pub smalls: Vec<u32>,
    pub pairs: Vec<u32>,
}

impl Places {
    pub fn is_first(&self, id: usize) -> bool {
        self.owners[id].id == id
    }

    pub fn firsts(&self) -> usize {
        (0..self.owners.len()).filter(|id| self.is_first(*id)).count()
    }
}

impl Packer {
    /// The first ones in id order, each behind the one before; then the others, which have their places.
    pub fn places(self, strings: &[Said], mode: Mode) -> Places {
        let owners = self.owners(strings);
        let (mut starts, mut dues) = (vec![0; strings.len()], vec![0; strings.len()]);
        let mut stored = vec![None; strings.len()];
        let mut cursor = Cursor::default();
        for id in self.turns(strings, &owners) {
            let is_first = owners[id].id == id;
            dues[id] = cursor.due;
            if self.has_turn(&strings[id], is_first) {
                starts[id] = self.put(&mut cursor, &strings[id], mode, is_first);
            }
            let is_stored = is_first || self.0 == Some(StoredTwice);
            stored[id] = is_stored.then_some(starts[id]);
        }
        for id in (0..strings.len()).filter(|id| owners[*id].id != *id) {
            starts[id] = starts[owners[id].id] + owners[id].skipped;
        }
        let ends = (0..strings.len()).map(|id| starts[id] + strings[id].bytes.len());
        let size = match self.0 {
            Some(GapsNotInSize) => cursor.due - cursor.gaps,
            Some(LastGapNotInSize) => cursor.due - cursor.last_gap,
            // Where offsets are too low, what is stored still has its bytes.
            Some(GapNotInLaterOffsets) => ends.max().unwrap_or(0),
            _ => cursor.due,
        };
        Places { owners, starts, stored, dues, size }
    }

    /// Whether something is put where the turn of a string comes: of those that are alike, for the first.
    fn has_turn(self, own: &Said, is_first: bool) -> bool {
        match self.0 {
            Some(EmptyAtStart) => is_first && !own.bytes.is_empty(),
            Some(StoredTwice | PlaceOfSharersLeft | GapForSharers) => true,
            _ => is_first,
        }
    }

    /// Where it starts.
    fn put(self, cursor: &mut Cursor, own: &Said, mode: Mode, is_first: bool) -> usize {
        let gap = self.gap(own, mode, cursor);
        let start = cursor.due + gap;
        let is_stored = is_first || self.0 != Some(GapForSharers);
        cursor.due += if self.0 == Some(GapNotInLaterOffsets) { 0 } else { gap };
        cursor.due += if is_stored { own.bytes.len() } else { 0 };
        cursor.gaps += gap;
        cursor.last_gap = if own.bytes.is_empty() { gap } else { 0 };
        start
    }

    /// The ids in the order in which they are packed.
    fn turns(self, strings: &[Said], owners: &[Owner]) -> Vec<usize> {
        let mut order: Vec<usize> = (0..strings.len()).collect();
        let is_shared = |id: usize| owners.iter().filter(|owner| owner.id == id).count() > 1;
        match self.0 {
            Some(Backwards) => order.reverse(),
            Some(ByOldPlace) => order.sort_by_key(|id| strings[*id].start),
            Some(LongestFirst) => order.sort_by_key(|id| usize::MAX - strings[*id].bytes.len()),
            Some(NarrowFirst) => order.sort_by_key(|id| strings[*id].wide),
            Some(IdentifiersFirst) => order.sort_by_key(|id| !strings[*id].identifier),
            Some(SharedFirst) => order.sort_by_key(|id| !is_shared(*id)),
            Some(EmptyLast) => order.sort_by_key(|id| strings[*id].bytes.is_empty()),
            _ => {}
        }
        order
    }

    /// "a wide string starts at an even storage offset, with one zero byte before it when needed"
    fn gap(self, own: &Said, mode: Mode, cursor: &Cursor) -> usize {
        let due = cursor.due;
        let is_even = match self.0 {
            Some(EvenAsPlain) => false,
            Some(PlainAsEven) => true,
            _ => mode == Mode::Even,
        };
        let is_padded = match self.0 {
            Some(NarrowPadded) => true,
            Some(EmptyNotPadded) => own.wide && !own.bytes.is_empty(),
            Some(FirstGapOnly) => own.wide && cursor.gaps == 0,
            _ => own.wide,
        };
        match self.0 {
            _ if !is_even || !is_padded => 0,
            Some(OddPlaces) => 1 - due % 2,
            Some(PlacesOfFour) => due.next_multiple_of(4) - due,
            Some(OldPlaceJudged) => own.start % 2,
            _ => due % 2,
        }
    }

    // ---- The tables.

    /// Overflow entries are judged for each string, by the offset that it has and by its length.
    pub fn tables(self, strings: &[Said], places: &Places) -> Tables {
        let overflows = |id: &usize| self.overflows(&strings[*id], places, *id);
        let mut with_pairs: Vec<usize> = (0..strings.len()).filter(overflows).collect();
        match self.0 {
            Some(PairsOfFirstsAlone) => with_pairs.retain(|id| places.is_first(*id)),
            Some(PairsOfFirstsBefore) => with_pairs.sort_by_key(|id| !places.is_first(*id)),
            _ => {}
        }
        let pair_of = |id: usize| match self.0 {
            Some(PairById) => id,
            Some(PairsOfFirstsAlone) => {
                let owner = places.owners[id].id;
                with_pairs.iter().position(|other| *other == owner).unwrap_or(0)
            }
            _ => with_pairs.iter().position(|other| *other == id).unwrap(),
        };
        let mut tables = Tables::default();
        for (id, own) in strings.iter().enumerate() {
            let (field, length) = match overflows(&id) {
                true => (pair_of(id), LONG),
                false => (self.entered(places, id), own.count()),
            };
            tables.smalls.push((length << 24 | field << 1) as u32 | u32::from(own.wide));
        }
        for id in with_pairs {
            let length = if self.0 == Some(PairInBytes) {
                strings[id].bytes.len()
            } else {
                strings[id].count()
            };
            tables.pairs.extend([self.entered(places, id) as u32, length as u32]);
        }
        tables
    }

    /// The offset that stands in the table.
    fn entered(self, places: &Places, id: usize) -> usize {
        match self.0 {
            Some(EntryByCursor) if !places.is_first(id) => places.dues[id],
            Some(EntryBeforeGap) => {
                let owner = places.owners[id];
                places.dues[owner.id] + owner.skipped
            }
            _ => places.starts[id],
        }
    }

    fn overflows(self, own: &Said, places: &Places, id: usize) -> bool {
        let (start, owner) = (places.starts[id], places.owners[id].id);
        let (is_far, is_long) = (start >= FAR, own.count() >= LONG);
        match self.0 {
            Some(OverflowByCursor) => places.dues[id] >= FAR || is_long,
            Some(OverflowBeforeGap) => places.dues[owner] >= FAR || is_long,
            Some(OverflowByLengthAlone) => is_long,
            Some(OverflowByOffsetAlone) => is_far,
            Some(OverflowFrom254) => is_far || own.count() >= LONG - 1,
            Some(OverflowFrom256) => is_far || own.count() > LONG,
            Some(OverflowInBytes) => is_far || own.bytes.len() >= LONG,
            Some(PairsKept) => is_far || is_long || own.has_pair,
            _ => is_far || is_long,
        }
    }
}
