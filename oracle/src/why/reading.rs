//! A second reading of document 02, No. 6: why a patch rebuilds. Each reason is a question of its own, asked of the strings
//! that a walk finds (`index/reading.rs`); 11 and 12 are those of a rebuild in `job/patch.rs`.

use super::overlap::Place;
use super::slip::Slip::{self, *};
use crate::family::STOPPED;
use crate::image::layout::*;
use crate::image::reading::{Reading, Small};
use crate::image::walk::Located;
use crate::index::reading::{strings, Reader as Filler, SHORT};
use crate::index::slip::Slip as Filling;
use crate::job::packing::{Mode, Packing};
use crate::job::patch::{patch, Patch};

/// "takes an image, layout, rebuild mode, string id and value"
#[derive(Clone, Copy)]
pub struct Asked<'a> {
    pub layout: Layout,
    pub mode: Mode,
    pub id: u64,
    pub value: &'a [u8],
    pub image: &'a [u8],
}

/// "in place; wide entry; value not ASCII; lengths differ, with both; or overlap, with the lowest overlapping id"
#[derive(Clone, Copy, PartialEq, Debug)]
pub enum Reason {
    InPlace,
    Wide,
    NotAscii,
    Lengths(u32, u32),
    Overlap(u32),
}

impl Reason {
    /// Its code and two words, 0 for those that it has not.
    pub fn words(self) -> [u32; 3] {
        match self {
            Reason::InPlace => [0, 0, 0],
            Reason::Wide => [1, 0, 0],
            Reason::NotAscii => [2, 0, 0],
            Reason::Lengths(entry, value) => [3, entry, value],
            Reason::Overlap(id) => [4, id, 0],
        }
    }
}

/// A mistake with the index that is filled, or with the reason.
#[derive(Clone, Copy, Debug)]
pub enum Mistake {
    Filling(Filling),
    Reason(Slip),
}

/// Reads as the documents say, or with one mistake on purpose.
#[derive(Clone, Copy)]
pub struct Reader(pub Option<Mistake>);

/// When a value or an id is judged.
enum Stage {
    BeforeImage,
    BeforeIndex,
    Due,
}

impl Asked<'_> {
    fn count(&self) -> u64 {
        word(self.image, STRINGS).into()
    }

    /// The image by a rebuild, or the number that refuses it: with no room 13, where it is accepted else.
    pub fn rebuilt(&self, room: usize) -> Result<Vec<u8>, u32> {
        let packing = Packing { mode: self.mode, slip: None };
        let rebuilt = Patch::Rebuilt { id: self.id as u32, value: self.value.to_vec(), packing };
        patch(self.layout, self.image, room as u64, &rebuilt)
    }
}

impl Reader {
    pub fn slip(self) -> Option<Slip> {
        match self.0 {
            Some(Mistake::Reason(slip)) => Some(slip),
            _ => None,
        }
    }

    pub fn slips(self, slip: Slip) -> bool {
        self.slip() == Some(slip)
    }

    fn filler(self) -> Filler {
        match self.0 {
            Some(Mistake::Filling(slip)) => Filler(Some(slip)),
            _ => Filler(None),
        }
    }

    /// 1 to 6; 13 for the index, of which nothing is written then; else it is filled, whatever is answered.
    pub fn why(self, asked: &Asked, index: &mut [u32]) -> Result<Reason, u32> {
        let cut = Asked { id: asked.id % (1 << 32), ..*asked };
        let asked = if self.slips(IdCut) { &cut } else { asked };
        self.judged(asked, Stage::BeforeImage)?;
        let reading = self.filler().admitted(asked.layout, asked.image, index)?;
        self.judged(asked, Stage::BeforeIndex)?;
        if self.filler().is_short(&reading, index) {
            self.filler().write_where_short(&reading, index);
            return Err(SHORT);
        }
        let strings = strings(&reading);
        let question = Question { reader: self, asked, reading, strings, held: index.to_vec() };
        let answer = self.judged(asked, Stage::Due).and_then(|()| question.answer());
        question.fill(&answer, index);
        answer
    }

    /// 7, then 8; at another stage, or in the other order, by a mistake.
    fn judged(self, asked: &Asked, stage: Stage) -> Result<(), u32> {
        let numbers: &[u32] = match (stage, self.slip()) {
            (Stage::BeforeImage, Some(IdBeforeImage)) => &[7],
            (Stage::BeforeImage, Some(ValueBeforeImage)) => &[8],
            (Stage::BeforeIndex, Some(IdBeforeIndex)) => &[7],
            (Stage::BeforeIndex, Some(ValueBeforeIndex)) => &[8],
            (Stage::Due, Some(ValueBeforeId)) => &[8, 7],
            (Stage::Due, Some(ValueNotJudged)) => &[7],
            (Stage::Due, _) => &[7, 8],
            _ => &[],
        };
        let is_due = |number: &&u32| match **number {
            7 => self.is_absent(asked),
            _ => std::str::from_utf8(asked.value).is_err(),
        };
        numbers.iter().find(is_due).map_or(Ok(()), |number| Err(*number))
    }

    fn is_absent(self, asked: &Asked) -> bool {
        match self.slip() {
            Some(IdOfCountTaken) => asked.id > asked.count(),
            Some(LastIdRefused) => asked.id >= asked.count().saturating_sub(1),
            _ => asked.id >= asked.count(),
        }
    }
}

/// What is asked of an admitted image, with an index that is long enough and what it held before.
pub(super) struct Question<'a> {
    pub reader: Reader,
    pub asked: &'a Asked<'a>,
    pub reading: Reading<'a>,
    pub strings: Vec<Located>,
    pub held: Vec<u32>,
}

impl Question<'_> {
    pub fn slip(&self) -> Option<Slip> {
        self.reader.slip()
    }

    /// "The first that holds, in that order, is given." A patch is in place where no reason for a rebuild holds, and of a
    /// rebuild 11 and 12 come first.
    fn answer(&self) -> Result<Reason, u32> {
        // Only by a mistake is a string asked for that there is not, and there a program would stop.
        let own = self.strings.get(self.asked.id as usize).ok_or(STOPPED)?;
        let reason = self.reasons(own).first().copied();
        match self.limit(reason.is_none()) {
            Some(number) => Err(number),
            None => Ok(reason.unwrap_or(Reason::InPlace)),
        }
    }

    /// 11 and 12 of a rebuild: in place there are none.
    fn limit(&self, in_place: bool) -> Option<u32> {
        let mode = match self.slip() {
            Some(LimitsOfPlain) => Mode::Plain,
            Some(LimitsOfEven) => Mode::Even,
            _ => self.asked.mode,
        };
        let room = if self.reader.slips(RoomOfImage) { self.asked.image.len() } else { 0 };
        let number = Asked { mode, ..*self.asked }.rebuilt(room).err();
        let has_small = || self.reading.functions().any(|function| function.header.is_none());
        match (self.slip(), number?) {
            (Some(RoomOfImage), 13) if !in_place => Some(13),
            (Some(LimitWhereInPlace), 11) => Some(11),
            (Some(FieldWhereInPlace), 12) => Some(12),
            (Some(LimitNotTold), 11) | (Some(FieldNotTold), 12) => None,
            // So long a result has each place past what a small record holds.
            (Some(FieldBeforeLimit), 11) if has_small() && !in_place => Some(12),
            (_, number @ (11 | 12)) if !in_place => Some(number),
            _ => None,
        }
    }

    /// The reasons for a rebuild that hold, in the request's order.
    fn reasons(&self, own: &Located) -> Vec<Reason> {
        let text = String::from_utf8_lossy(self.asked.value);
        if self.reader.slips(SameValueInPlace) && text == self.said(own) {
            return vec![];
        }
        let wide = self.is_wide(own).then_some(Reason::Wide);
        let not_ascii = self.is_not_ascii(&text).then_some(Reason::NotAscii);
        let mut reasons = [wide, not_ascii, self.lengths(own, &text), self.overlap(own)];
        match self.slip() {
            Some(NotAsciiBeforeWide) => reasons.swap(0, 1),
            Some(LengthsBeforeWide) => reasons[..3].rotate_right(1),
            Some(LengthsBeforeNotAscii) => reasons.swap(1, 2),
            Some(OverlapBeforeLengths) => reasons.swap(2, 3),
            Some(OverlapFirst) => reasons.rotate_right(1),
            Some(LastThatHolds) => reasons.reverse(),
            _ => {}
        }
        reasons.into_iter().flatten().collect()
    }

    /// "wide entry"
    fn is_wide(&self, own: &Located) -> bool {
        let is_odd = |string: &Located| string.wide && string.start % 2 == 1;
        match self.slip() {
            Some(WideNotAsked) => false,
            Some(OddElsewhereWide) if self.asked.mode == Mode::Even => {
                own.wide || self.strings.iter().any(is_odd)
            }
            _ => own.wide,
        }
    }

    /// "value not ASCII"
    fn is_not_ascii(&self, text: &str) -> bool {
        match self.slip() {
            Some(NotAsciiNotAsked | UnitsForBytes | CharactersForBytes) => false,
            Some(DeleteNotAscii) => text.chars().any(|c| c >= '\u{7f}'),
            Some(ControlsNotAscii) => text.chars().any(|c| !(' '..='~').contains(&c)),
            Some(Character80Ascii) => text.chars().any(|c| c > '\u{80}'),
            Some(FirstCharacterJudged) => text.chars().next().is_some_and(|c| !c.is_ascii()),
            Some(LastCharacterJudged) => text.chars().last().is_some_and(|c| !c.is_ascii()),
            _ => !text.is_ascii(),
        }
    }

    /// "lengths differ, with both": the entry's and the value's, in bytes.
    fn lengths(&self, own: &Located, text: &str) -> Option<Reason> {
        let entry = match self.slip() {
            Some(EntryLengthByField) => self.small(self.asked.id as usize).length(),
            _ => own.bytes as u32,
        };
        let value = match self.slip() {
            Some(UnitsForBytes) => text.encode_utf16().count() as u32,
            Some(CharactersForBytes) => text.chars().count() as u32,
            _ => self.asked.value.len() as u32,
        };
        let [entry, value] = [entry, value].map(|length| match self.slip() {
            Some(LengthsOf8Bits) => length % (1 << 8),
            Some(LengthsOf16Bits) => length % (1 << 16),
            _ => length,
        });
        let fits = match self.slip() {
            Some(LengthsNotAsked) => true,
            Some(ShorterFits) => value <= entry,
            Some(LongerFits) => value >= entry,
            _ => value == entry,
        };
        let told = match self.slip() {
            Some(LengthsSwapped) => Reason::Lengths(value, entry),
            Some(EntryLengthTwice) => Reason::Lengths(entry, entry),
            Some(ValueLengthTwice) => Reason::Lengths(value, value),
            _ => Reason::Lengths(entry, value),
        };
        (!fits).then_some(told)
    }

    fn small(&self, id: usize) -> Small {
        Small(word(self.reading.image, self.reading.places().small as usize + 4 * id))
    }

    /// What a string says.
    fn said(&self, string: &Located) -> String {
        let [start, end] = [string.start, string.start + string.bytes].map(|at| at as usize);
        let bytes = &self.reading.image[start..end];
        let unit = |unit: &[u8]| number(unit, 0, unit.len()) as u16;
        let units: Vec<u16> = bytes.chunks(1 + usize::from(string.wide)).map(unit).collect();
        String::from_utf16_lossy(&units)
    }

    /// Where a string stands, in storage.
    pub fn place(&self, id: usize) -> Place {
        let (string, storage) = (&self.strings[id], self.reading.places().storage);
        let bytes = |units: u64| if string.wide { 2 * units } else { units };
        let held = |k: usize| u64::from(self.held[k * self.strings.len() + id]);
        let (start, bytes) = match self.slip() {
            Some(WideInUnits) => (string.start - storage, string.units),
            Some(IdentifiersInPairs) if string.identifier => {
                (string.start - storage, 2 * string.units)
            }
            Some(PairNotRead) => {
                let small = self.small(id);
                (small.offset().into(), bytes(small.length().into()))
            }
            Some(OldIndexRead) => (held(0), held(1) * (1 + held(2) % 2)),
            _ => (string.start - storage, string.bytes),
        };
        Place { start, end: start + bytes }
    }

    // ---- The index.

    /// It ends as filled, whatever is answered.
    fn fill(&self, answer: &Result<Reason, u32>, index: &mut [u32]) {
        let (count, id) = (self.strings.len(), self.asked.id.min(1 << 32) as usize);
        let put = match (self.slip(), answer) {
            (Some(IndexLeft), _)
            | (Some(IndexLeftWhere7), Err(7))
            | (Some(IndexLeftWhere8), Err(8))
            | (Some(IndexLeftWhere11), Err(11))
            | (Some(IndexLeftWhere12), Err(12))
            | (Some(IndexLeftInPlace), Ok(Reason::InPlace)) => 0,
            // Where no overlap is asked for, no index is needed.
            (
                Some(IndexLeftUnlessAsked),
                Ok(Reason::Wide | Reason::NotAscii | Reason::Lengths(..)),
            ) => 0,
            (Some(IndexUpToId), _) => count.min(id + 1),
            (Some(IndexUpToOverlap), Ok(Reason::Overlap(other))) => *other as usize + 1,
            _ => count,
        };
        let filler = self.reader.filler();
        filler.put(&self.reading, &self.strings[..put], index);
        match self.slip() {
            Some(IndexCleared) => index.fill(0),
            Some(ValueLengthStored) if id < count => {
                index[count + id] = self.asked.value.len() as u32;
            }
            Some(IndexOfResult) if answer.is_ok() && *answer != Ok(Reason::InPlace) => {
                // What is too long for a call is passed over.
                let image = self.asked.rebuilt(1 << 20).unwrap_or(self.asked.image.to_vec());
                filler.fill(self.asked.layout, &image, index).unwrap();
            }
            _ => {}
        }
    }
}
