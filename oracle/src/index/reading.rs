//! A second reading of document 02, No. 13: an index of an image's strings. It goes string by string, each found by a
//! walk of its own, where our code makes one pass.

use super::slip::Slip::{self, *};
use crate::image::layout::*;
use crate::image::reading::{Reading, Small};
use crate::image::walk::{locate, Located};

/// The index is too short.
pub const SHORT: u32 = 13;

/// Reads as the documents say, or with one mistake on purpose.
#[derive(Clone, Copy)]
pub struct Reader(pub Option<Slip>);

impl Reader {
    pub fn slips(self, slip: Slip) -> bool {
        self.0 == Some(slip)
    }

    /// "filling, after 1 to 6, 13 when the index is shorter than three words per string, nothing written". Answers the
    /// string count.
    pub fn fill(self, layout: Layout, image: &[u8], index: &mut [u32]) -> Result<u32, u32> {
        let reading = self.admitted(layout, image, index)?;
        if self.is_short(&reading, index) {
            self.write_where_short(&reading, index);
            return Err(SHORT);
        }
        self.put(&reading, &strings(&reading), index);
        let count = reading.count(STRINGS);
        Ok(match self.0 {
            Some(WordsAnswered) => 3 * count,
            Some(LengthAnswered) => index.len() as u32,
            Some(LastIdAnswered) => count.saturating_sub(1),
            Some(IdentifiersAnswered) => reading.count(IDENTIFIERS),
            _ => count,
        })
    }

    pub fn admitted<'a>(
        self,
        layout: Layout,
        image: &'a [u8],
        index: &mut [u32],
    ) -> Result<Reading<'a>, u32> {
        let reading = Reading { layout, image, slip: None };
        if self.slips(RoomBeforeImage) && self.is_short(&reading, index) {
            return Err(SHORT);
        }
        match reading.refusal() {
            0 => Ok(reading),
            number => {
                if self.slips(ClearedWhereRefused) {
                    index.fill(0);
                }
                Err(number)
            }
        }
    }

    pub fn is_short(self, reading: &Reading, index: &[u32]) -> bool {
        let count = u64::from(reading.count(STRINGS));
        let needed = match self.0 {
            Some(RoomByOneLess) => (3 * count).saturating_sub(1),
            Some(RoomByOneMore) => 3 * count + 1,
            Some(RoomForOneRun) => count,
            Some(RoomForTwoRuns) => 2 * count,
            Some(RoomInBytes) => (3 * count).div_ceil(4),
            _ => 3 * count,
        };
        (index.len() as u64) < needed
    }

    /// What a mistake writes into an index that is too short.
    pub fn write_where_short(self, reading: &Reading, index: &mut [u32]) {
        match self.0 {
            Some(FirstStringWrittenWhereShort) => self.put(reading, &strings(reading)[..1], index),
            Some(AllThatFitsWrittenWhereShort) => self.put(reading, &strings(reading), index),
            Some(ClearedWhereShort) => index.fill(0),
            _ => {}
        }
    }

    /// "for each id storage offset, length and flags, in three runs of words"; only a mistake asks for a word that the
    /// index does not have.
    pub fn put(self, reading: &Reading, strings: &[Located], index: &mut [u32]) {
        let count = reading.count(STRINGS) as usize;
        let run = match self.0 {
            Some(RunsOneLonger) => count + 1,
            Some(RunsOneShorter) => count.saturating_sub(1),
            Some(RunsByThirds) => index.len() / 3,
            _ => count,
        };
        for (id, string) in strings.iter().enumerate() {
            if self.leaves_out(id, count) {
                continue;
            }
            for (k, word) in self.words(reading, id, string).into_iter().enumerate() {
                let at = if self.slips(SideBySide) { 3 * id + k } else { k * run + id };
                index.get_mut(at).into_iter().for_each(|place| *place = word);
            }
        }
        let cleared = match self.0 {
            Some(OneStringMore) => 1,
            Some(RestCleared) => index.len(),
            _ => 0,
        };
        index.iter_mut().skip(3 * count).take(cleared).for_each(|word| *word = 0);
    }

    fn leaves_out(self, id: usize, count: usize) -> bool {
        self.slips(FirstStringLeftOut) && id == 0
            || self.slips(LastStringLeftOut) && id + 1 == count
    }

    /// The three words of a string.
    fn words(self, reading: &Reading, id: usize, string: &Located) -> [u32; 3] {
        let [offset, length] = self.place(reading, id, string);
        let mut words = [offset, length, self.flags(reading, id, string)];
        match self.0 {
            Some(OffsetsForLengths) => words.swap(0, 1),
            Some(OffsetsForFlags) => words.swap(0, 2),
            Some(LengthsForFlags) => words.swap(1, 2),
            _ => {}
        }
        words
    }

    /// Storage offset and length, which "counts bytes for a narrow string, 16-bit units for a wide one".
    fn place(self, reading: &Reading, id: usize, string: &Located) -> [u32; 2] {
        let places = reading.places();
        let small = small(reading, id);
        let [offset, length] = [string.start - places.storage, string.units].map(|n| n as u32);
        let pair = |k: usize| {
            let at = places.overflow as usize + 8 * k;
            [word(reading.image, at), word(reading.image, at + 4)]
        };
        // The pairs up to a string's own are those that finding it visits.
        let own = string.pairs.saturating_sub(1);
        match self.0 {
            Some(PlaceInImage) => [string.start as u32, length],
            Some(FieldForOffset) => [small.offset(), length],
            Some(FieldForLength) => [offset, small.length()],
            Some(PairOfNext) if small.overflows() => pair(own + 1),
            Some(PairOfOneBefore) if small.overflows() => pair(own.saturating_sub(1)),
            Some(PairById) if small.overflows() => pair(id),
            Some(FirstPairForAll) if small.overflows() => pair(0),
            Some(WideInBytes) => [offset, string.bytes as u32],
            Some(EndForLength) => [offset, offset + length],
            _ => [offset, length],
        }
    }

    /// Bit 0 for a wide string, bit 1 for an identifier.
    fn flags(self, reading: &Reading, id: usize, string: &Located) -> u32 {
        let is_wide = |id: usize| small(reading, id).is_wide();
        let is_identifier =
            |id: usize| locate(reading, id as u32).is_ok_and(|string| string.identifier);
        let rank = string.rank.unwrap_or(0) as u32;
        let before = id.saturating_sub(1);
        let (wide, identifier) = match self.0 {
            Some(IdentifierOfNext) => (string.wide, is_identifier(id + 1)),
            Some(IdentifierOfOneBefore) => (string.wide, is_identifier(before)),
            Some(WidthOfNext) => (is_wide(id + 1), string.identifier),
            Some(WidthOfOneBefore) => (is_wide(before), string.identifier),
            Some(FlagsSwapped) => (string.identifier, string.wide),
            Some(NoIdentifierFlag) => (string.wide, false),
            Some(NoWideFlag) => (false, string.identifier),
            Some(KindById) => (string.wide, kinds(reading, |_| 1).get(id) == Some(&true)),
            Some(EmptyRunsHaveOne) => {
                (string.wide, kinds(reading, |count| count.max(1)).get(id) == Some(&true))
            }
            _ => (string.wide, string.identifier),
        };
        let flags = u32::from(wide) + 2 * u32::from(identifier);
        match self.0 {
            Some(RankForFlag) => u32::from(wide) + 2 * rank,
            Some(RankBesideFlags) => flags + 4 * rank,
            _ => flags,
        }
    }
}

/// The strings of an admitted image, each found by a walk of its own.
pub fn strings(reading: &Reading) -> Vec<Located> {
    (0..reading.count(STRINGS)).map(|id| locate(reading, id).unwrap()).collect()
}

fn small(reading: &Reading, id: usize) -> Small {
    Small(word(reading.image, reading.places().small as usize + 4 * id))
}

/// For each string whether it is an identifier, where each kind word covers as many as a mistake says.
fn kinds(reading: &Reading, covered: fn(u32) -> u32) -> Vec<bool> {
    let kinds = reading.places().kinds as usize;
    let words = (0..reading.count(KINDS) as usize).map(|k| word(reading.image, kinds + 4 * k));
    let run = |word: u32| vec![word & IDENTIFIER != 0; covered(word & !IDENTIFIER) as usize];
    words.flat_map(run).collect()
}
