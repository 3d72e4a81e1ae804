//! Translators' files, document 02, No. 1: **a second reading** of the request's words. A file is read into an image, or
//! written from one, with all that a caller lends: what is answered, and what the lent space then holds.

pub mod causes;
pub mod draw;
pub mod file;
pub mod files;
pub mod fixed;
pub mod reading;
pub mod slip;
pub mod words;
pub mod writing;

use crate::image::layout::{word, Layout, STRINGS};
use crate::image::reading::Reading;
use crate::job::packing::Mode;
use crate::patches::judgement::judge;
use crate::patches::{even, Patch};
use slip::Slip;

/// What is lent. A call that writes a file takes no text and no ends.
#[derive(Clone, Default, PartialEq)]
pub struct Lent {
    pub text: Vec<u8>,
    pub ends: Vec<u32>,
    pub work: Vec<u32>,
    pub out: Vec<u8>,
}

/// So much of it has to be there: bytes, words, words.
#[derive(Clone, Copy, PartialEq, Debug)]
pub struct Space {
    pub text: usize,
    pub ends: usize,
    pub work: usize,
}

#[derive(Clone)]
pub struct Call {
    /// The file that is read; with none, one is written.
    pub file: Option<Vec<u8>>,
    pub layout: u8,
    pub mode: u8,
    pub image: Vec<u8>,
    pub lent: Lent,
}

/// A length or the number of a refusal, and what the lent space then holds.
#[derive(Clone, PartialEq)]
pub struct Answer {
    pub end: Result<usize, u32>,
    pub lent: Lent,
}

/// How a single string patch is answered.
pub type Patcher<'a> = &'a dyn Fn(&Patch) -> Result<Vec<u8>, u32>;

/// What a call makes, or the number of a refusal; and whether the lent space was taken into use.
struct Made {
    end: Result<Vec<u8>, u32>,
    is_used: bool,
}

impl Call {
    /// The second reading's answer, with a mistake on purpose or with none.
    pub fn answer(&self, slip: Option<Slip>) -> Answer {
        self.answer_by(&|patch| even::read(patch, None), slip)
    }

    /// The answer where each single patch is the Rust's, on a file that is parsed anew; in even mode the second reading's,
    /// held to the Rust's in plain mode.
    pub fn held(&self) -> Answer {
        self.answer_by(&|patch| judge(patch).answer, None)
    }

    fn answer_by(&self, patcher: Patcher, slip: Option<Slip>) -> Answer {
        let Made { end, is_used } = match &self.file {
            Some(file) => reading::run(self, file, patcher, slip),
            None => writing::run(self, slip),
        };
        let mut lent = self.lent.clone();
        self.clear(&mut lent, is_used, end.is_err(), slip);
        if let Ok(made) = &end {
            let length = made.len().min(lent.out.len());
            lent.out[..length].copy_from_slice(&made[..length]);
        }
        let end = match (end, slip) {
            (Err(number), Some(Slip::WrittenInPart)) if self.file.is_none() && number == 13 => {
                writing::put_part(self, &mut lent.out);
                Err(number)
            }
            (end, _) => end.map(|made| made.len()),
        };
        Answer { end, lent }
    }

    /// "zeros over the part that was asked for".
    fn clear(&self, lent: &mut Lent, is_used: bool, is_refused: bool, slip: Option<Slip>) {
        let slips = |one| slip == Some(one);
        if !is_used && !slips(Slip::ClearedWhereShort)
            || is_refused && slips(Slip::LeftWhereRefused)
        {
            return;
        }
        let whole = slips(Slip::ClearedWhole);
        let Space { text, ends, work } = self.space();
        let so_many = |asked: usize, length: usize| if whole { length } else { asked.min(length) };
        if !slips(Slip::TextLeft) {
            let count = so_many(text, lent.text.len());
            lent.text[..count].fill(0);
        }
        for (words, asked, left) in
            [(&mut lent.ends, ends, Slip::EndsLeft), (&mut lent.work, work, Slip::WorkLeft)]
        {
            if !slips(left) {
                let count = so_many(asked, words.len());
                words[..count].fill(0);
            }
        }
    }

    /// What has to be lent: for a file of F bytes F bytes, F / 8 + 1 words, and three times as many words and one for each
    /// string; to write one, four words for each string.
    pub fn space(&self) -> Space {
        let strings = word(&self.image, STRINGS) as usize;
        match &self.file {
            Some(file) => {
                let words = file.len() / 8 + 1;
                Space { text: file.len(), ends: words, work: 3 * words + strings }
            }
            None => Space { text: 0, ends: 0, work: 4 * strings },
        }
    }

    /// The lengths that the room is judged by, where there is room for all: those of the image after each single patch, or
    /// of the finalized one, or of the file. None where the call is refused otherwise.
    pub fn lengths(&self) -> Option<Vec<usize>> {
        match self.step_lengths() {
            Some(lengths) if lengths.is_empty() => Some(vec![self.image.len()]),
            None if self.file.is_none() && self.layout <= 4 && self.reading().refusal() == 0 => {
                Some(vec![writing::written(self, None).len()])
            }
            lengths => lengths,
        }
    }

    /// Those of the single patches alone, of which there may be none.
    pub fn step_lengths(&self) -> Option<Vec<usize>> {
        self.file.as_ref().and_then(|file| reading::lengths(self, file))
    }

    /// Whether less is lent for work than has to be.
    pub fn is_short(&self) -> bool {
        let Space { text, ends, work } = self.space();
        let lent = &self.lent;
        lent.text.len() < text || lent.ends.len() < ends || lent.work.len() < work
    }

    pub fn reading(&self) -> Reading<'_> {
        Reading { layout: Layout(self.layout), image: &self.image, slip: None }
    }

    fn mode(&self) -> Mode {
        if self.mode == 0 {
            Mode::Plain
        } else {
            Mode::Even
        }
    }

    /// The same with as much lent as has to be, and so much room. Every byte that is lent is of some old use.
    pub fn lending(mut self, room: usize) -> Call {
        let Space { text, ends, work } = self.space();
        let old = u32::from_le_bytes([OLD; 4]);
        self.lent = Lent {
            text: vec![OLD; text],
            ends: vec![old; ends],
            work: vec![old; work],
            out: vec![OLD; room],
        };
        self
    }
}

/// What is lent holds this before a call.
pub const OLD: u8 = 0xa5;
