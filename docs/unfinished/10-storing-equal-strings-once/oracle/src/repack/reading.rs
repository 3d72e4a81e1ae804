//! A second reading of document 02, No. 10: an image is packed anew, and equal strings are stored once. It takes the image apart
//! into values and writes them anew, where our code copies bytes; the tail is that of a rebuild in `job/patch.rs`, with no
//! string patched.

use std::cell::OnceCell;

use super::places::Places;
use super::sharing::Said;
use super::slip::Slip::{self, *};
use crate::image::layout::*;
use crate::image::reading::{Function, Reading, Small};
use crate::job::packing::Mode;
use crate::job::patch::{Parts, Text, FIELD, LIMIT};

/// The words of the work space for each string.
pub const WORDS: usize = 5;

/// "a call that repacks an admitted image", "in either mode of No. 2"
#[derive(Clone, Copy)]
pub struct Asked<'a> {
    pub layout: Layout,
    pub mode: Mode,
    pub image: &'a [u8],
}

/// Packs as the documents say, or with one mistake on purpose.
#[derive(Clone, Copy)]
pub struct Packer(pub Option<Slip>);

/// "Refusals: 1 to 6, 11 to 13, in that order"; 13 for the work space comes right behind 1 to 6.
#[derive(Clone, Copy, PartialEq)]
enum Stage {
    Image,
    Work,
    Limit,
    Field,
    Room,
}

use Stage::{Field, Image, Limit, Room, Work};

/// A number, and when it came up.
struct Refusal {
    number: u32,
    stage: Stage,
}

/// An admitted image, and where its strings go.
pub(super) struct Plan<'a> {
    pub packer: Packer,
    pub asked: &'a Asked<'a>,
    pub parts: Parts<'a>,
    pub strings: Vec<Said<'a>>,
    pub places: Places,
}

impl Asked<'_> {
    pub fn reading(&self) -> Reading<'_> {
        Reading { layout: self.layout, image: self.image, slip: None }
    }

    pub fn count(&self) -> usize {
        word(self.image, STRINGS) as usize
    }
}

impl Packer {
    pub fn slips(self, slip: Slip) -> bool {
        self.0 == Some(slip)
    }

    /// The length of the image that the output then starts with, or the number of a refusal.
    pub fn repack(self, asked: &Asked, work: &mut [u32], out: &mut [u8]) -> Result<u32, u32> {
        Task { packer: self, asked, plan: OnceCell::new() }.run(work, out)
    }
}

/// One call.
struct Task<'a> {
    packer: Packer,
    asked: &'a Asked<'a>,
    /// Made where it is first asked for, and only of an image.
    plan: OnceCell<Plan<'a>>,
}

impl<'a> Task<'a> {
    fn slip(&self) -> Option<Slip> {
        self.packer.0
    }

    fn plan(&self) -> &Plan<'a> {
        self.plan.get_or_init(|| {
            let parts = Parts::of(self.asked.layout, self.asked.image);
            let strings = self.packer.said(&parts, self.asked.image);
            let places = self.packer.places(&strings, self.asked.mode);
            Plan { packer: self.packer, asked: self.asked, parts, strings, places }
        })
    }

    fn run(&self, work: &mut [u32], out: &mut [u8]) -> Result<u32, u32> {
        let refused = self.refused(work.len(), out.len());
        self.leave_work(refused.as_ref(), work);
        if let Some(Refusal { number, stage }) = refused {
            match self.slip() {
                Some(WrittenWithoutRoom) if stage == Room => put(out, &self.plan().image()),
                Some(OutputClearedWhereRefused) => out.fill(0),
                _ => {}
            }
            return Err(number);
        }
        let image = self.plan().image();
        put(out, &image);
        if self.packer.slips(RestOfOutputCleared) {
            out.iter_mut().skip(image.len()).for_each(|byte| *byte = 0);
        }
        let unshared = || self.plan().unshared_length();
        let length = image.len() as u64;
        let answer = match self.slip() {
            Some(OldLengthAnswered) => self.asked.image.len() as u64,
            Some(UnsharedLengthAnswered) => unshared(),
            Some(SavedAnswered) => unshared() - length,
            _ => length,
        };
        Ok(answer as u32)
    }

    // ---- The refusals.

    fn order(&self) -> [Stage; 5] {
        match self.slip() {
            Some(WorkBeforeImage) => [Work, Image, Limit, Field, Room],
            Some(WorkAfterLimit) => [Image, Limit, Work, Field, Room],
            Some(WorkLast) => [Image, Limit, Field, Room, Work],
            Some(FieldBeforeLimit) => [Image, Work, Field, Limit, Room],
            Some(RoomBeforeLimit) => [Image, Work, Room, Limit, Field],
            Some(RoomBeforeField) => [Image, Work, Limit, Room, Field],
            _ => [Image, Work, Limit, Field, Room],
        }
    }

    /// The first of them that is due.
    fn refused(&self, words: usize, room: usize) -> Option<Refusal> {
        let number = |stage: Stage| match stage {
            Image => Some(self.asked.reading().refusal()).filter(|number| *number != 0),
            Work => self.is_short(words).then_some(13),
            Limit => self.plan().is_past_limit().then_some(11),
            Field => self.plan().is_past_field().then_some(12),
            Room => self.plan().room_refusal(room),
        };
        let due = |stage: Stage| Some(Refusal { number: number(stage)?, stage });
        self.order().into_iter().find_map(due)
    }

    /// Whether there are fewer than five words for each string.
    fn is_short(&self, words: usize) -> bool {
        let count = self.asked.count();
        let needed = match self.slip() {
            Some(WorkByOneLess) => (WORDS * count).saturating_sub(1),
            Some(WorkByOneMore) => WORDS * count + 1,
            Some(WorkOfFour) => (WORDS - 1) * count,
            Some(WorkInBytes) => (WORDS * count).div_ceil(4),
            Some(WorkForFirsts) => WORDS * self.plan().places.firsts(),
            Some(WorkForAllButOne) => WORDS * count.saturating_sub(1),
            Some(WorkNotJudged) => 0,
            _ => WORDS * count,
        };
        words < needed
    }

    // ---- What is lent.

    /// Zeros over the part that was asked for, whatever the answer; where it is too short, not a word is written.
    fn leave_work(&self, refused: Option<&Refusal>, work: &mut [u32]) {
        let needed = WORDS * self.asked.count();
        let refused = refused.map(|refusal| (refusal.stage, refusal.number));
        let cleared = match (self.slip(), refused) {
            (Some(ClearedWhereImageRefused), Some((Image, _)))
            | (Some(ClearedWhereShort), Some((Work, _))) => needed,
            (Some(FirstWordWrittenWhereShort), Some((Work, _))) => 1,
            (_, Some((Image | Work, _)))
            | (Some(WorkLeft), _)
            | (Some(WorkLeftWhereDone), None)
            | (Some(WorkLeftWhere11), Some((_, 11)))
            | (Some(WorkLeftWhere12), Some((_, 12)))
            | (Some(WorkLeftWhere13), Some((_, 13))) => 0,
            (Some(WorkLeftWhereNothingShared), _) if !self.plan().is_anything_shared() => 0,
            (Some(OneWordLeft), _) => needed.saturating_sub(1),
            (Some(OneWordMore), _) => needed + 1,
            (Some(WorkOfFirstsCleared), _) => WORDS * self.plan().places.firsts(),
            (Some(WholeWorkCleared), _) => work.len(),
            _ => needed,
        };
        work.iter_mut().take(cleared).for_each(|word| *word = 0);
        if self.packer.slips(WorkAsUsed) && cleared > 0 {
            work.iter_mut().take(needed).enumerate().for_each(|(i, word)| *word = i as u32);
        }
    }
}

impl Packer {
    /// The strings of an admitted image.
    fn said<'a>(self, parts: &Parts<'a>, image: &'a [u8]) -> Vec<Said<'a>> {
        let said = |(id, (text, identifier)): (usize, (&Text, &bool))| {
            let bytes = &image[parts.storage + text.start..parts.storage + text.end];
            let has_pair = Small(word(image, parts.small + 4 * id)).overflows();
            let (wide, start) = (text.wide, text.start);
            let said = Said { wide, identifier: *identifier, bytes, start, has_pair, digest: 0 };
            Said { digest: self.digest(&said), ..said }
        };
        parts.texts.iter().zip(&parts.identifiers).enumerate().map(said).collect()
    }
}

/// An image at the start of the output, as much of it as there is room for.
fn put(out: &mut [u8], image: &[u8]) {
    let length = out.len().min(image.len());
    out[..length].copy_from_slice(&image[..length]);
}

impl Plan<'_> {
    pub fn slip(&self) -> Option<Slip> {
        self.packer.0
    }

    fn length(&self) -> u64 {
        self.length_behind(self.tail())
    }

    fn length_behind(&self, tail: u64) -> u64 {
        tail + (self.asked.image.len() - self.parts.tail) as u64
    }

    /// Where the tail comes to start.
    pub fn tail(&self) -> u64 {
        if self.is_kept() {
            return self.parts.tail as u64;
        }
        self.tail_behind(&self.places)
    }

    fn tail_behind(&self, places: &Places) -> u64 {
        let tables = self.packer.tables(&self.strings, places);
        let words = tables.smalls.len() + tables.pairs.len();
        let end = (self.parts.small + 4 * words + self.size(places)) as u64;
        match self.slip() {
            Some(NotPadded) => end,
            Some(PaddedByFour) => end.next_multiple_of(4) + 4,
            _ => end.next_multiple_of(4),
        }
    }

    /// The bytes of storage.
    pub fn size(&self, places: &Places) -> usize {
        places.size + if self.packer.slips(StrayKept) { self.stray().len() } else { 0 }
    }

    /// The bytes of storage as given behind all strings.
    pub fn stray(&self) -> &[u8] {
        let end = self.parts.texts.iter().map(|text| text.end).max().unwrap_or(0);
        let size = word(self.asked.image, STORAGE) as usize;
        &self.asked.image[self.parts.storage + end..self.parts.storage + size]
    }

    fn is_anything_shared(&self) -> bool {
        self.places.firsts() < self.strings.len()
    }

    /// Whether the image stays as it was given, by a mistake.
    pub fn is_kept(&self) -> bool {
        match self.slip() {
            Some(NothingSharedKept | NothingSharedNotFinished) => !self.is_anything_shared(),
            Some(NoStringsKept) => self.strings.is_empty(),
            Some(ShorterKept) => self.tail_behind(&self.places) > self.parts.tail as u64,
            _ => false,
        }
    }

    /// The length of a rebuild of the same strings, which shares nothing.
    fn unshared_length(&self) -> u64 {
        self.length_behind(self.tail_behind(&self.unshared()))
    }

    pub fn unshared(&self) -> Places {
        Packer(Some(NothingShared)).places(&self.strings, self.asked.mode)
    }

    /// Where the tail would start in a mode.
    fn tail_in(&self, mode: Mode) -> u64 {
        self.tail_behind(&self.packer.places(&self.strings, mode))
    }

    /// 11: "result over 67,108,864 bytes"
    fn is_past_limit(&self) -> bool {
        let tail = match self.slip() {
            Some(LimitNotJudged) => return false,
            Some(LimitUnshared) => self.tail_behind(&self.unshared()),
            Some(LimitOfPlain) => self.tail_in(Mode::Plain),
            Some(LimitOfEven) => self.tail_in(Mode::Even),
            _ => self.tail(),
        };
        self.length_behind(tail) > LIMIT
    }

    /// 12: "a small record's moved body offset or moved info place over 33,554,431"
    fn is_past_field(&self) -> bool {
        let tail = match self.slip() {
            Some(FieldNotJudged) => return false,
            Some(FieldUnshared) => self.tail_behind(&self.unshared()),
            Some(FieldOfPlain) => self.tail_in(Mode::Plain),
            Some(FieldOfEven) => self.tail_in(Mode::Even),
            _ => self.tail(),
        };
        let is_far = |place: u64| place != 0 && place + tail - self.parts.tail as u64 > FIELD;
        let is_past = |function: Function| match self.slip() {
            _ if function.header.is_some() => false,
            Some(FieldOfBodiesAlone) => is_far(function.body.0),
            Some(FieldOfInfosAlone) => is_far(function.info),
            _ => is_far(function.body.0) || is_far(function.info),
        };
        self.asked.reading().functions().any(is_past)
    }

    /// 13: "output shorter than the result"
    fn room_refusal(&self, room: usize) -> Option<u32> {
        let needed = match self.slip() {
            Some(NothingSharedRefused) if !self.is_anything_shared() => return Some(11),
            Some(RoomByOneLess) => self.length() - 1,
            Some(RoomByOneMore) => self.length() + 1,
            Some(RoomOfImage) => self.length().max(self.asked.image.len() as u64),
            Some(RoomUnshared) => self.unshared_length(),
            Some(RoomOfPlain) => self.length_behind(self.tail_in(Mode::Plain)),
            Some(RoomOfEven) => self.length_behind(self.tail_in(Mode::Even)),
            _ => self.length(),
        };
        ((room as u64) < needed).then_some(13)
    }
}
