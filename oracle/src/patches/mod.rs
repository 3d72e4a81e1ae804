//! Calls 32 to 34 and 36: the patches, by the Rust on a file that the judge parses, and by a second reading of
//! document 01 for what is refused; those in the even mode and the pass over a list of edits, which the Rust has not, by
//! one of document 02.

pub mod draw;
pub mod even;
pub mod judgement;
mod lists;
pub mod odd;
pub mod orders;
pub mod parsed;
pub mod pass;
mod rust;
pub mod small;
pub mod texts;

use crate::family::Argument::*;
use crate::family::{Answered, Family, Function};
use crate::image::layout::Layout;
use crate::image::reading::Reading;
use crate::job::packing::{self, Mode, MODES};
use crate::job::pass as listed;
use crate::stream::{words, Call, ARGUMENTS};
use judgement::{judge, Departure};

/// The longest inputs of a call, and the longest output.
const LONGEST: usize = 131_072;

pub static FAMILY: Family = Family {
    name: "patches",
    functions: &FUNCTIONS,
    longest_buffer: 2 * LONGEST,
    fixed: draw::fixed,
    random: draw::random,
    // The judge itself recognises them: its answers are what document 01 asks for.
    departures: &[],
};

#[derive(Clone, Copy, PartialEq)]
pub enum Kind {
    ById,
    ByValue,
    Body,
    Pass,
}

/// The modes of a kind of patch, each by its word.
fn modes(kind: Kind) -> &'static [Mode] {
    match kind {
        Kind::Body => &[Mode::Plain],
        _ => &MODES,
    }
}

macro_rules! function {
    ($number:literal, $name:literal, $kind:ident, $id:literal, $old:literal, $new:literal $(, $mode:expr)?) => {
        Function {
            number: $number,
            name: $name,
            arguments: &[
                Word("layout"),
                Word($id),
                Word(concat!("length of the ", $old)),
                Word(concat!("length of the ", $new)),
                Word("length of the image"),
                $($mode,)?
            ],
            run: |a, buffer| run(Kind::$kind, a, buffer),
        }
    };
}

static FUNCTIONS: [Function; 4] = [
    function!(32, "patch_string_by_id", ById, "id", "old value", "new value", Flag("even")),
    function!(33, "patch_string_replace", ByValue, "id", "old value", "new value", Flag("even")),
    function!(34, "patch_function_bytes", Body, "id", "old value", "body"),
    function!(36, "patch_strings", Pass, "number of ids", "lists", "text", Flag("even")),
];

const KINDS: [Kind; 4] = [Kind::ById, Kind::ByValue, Kind::Body, Kind::Pass];

/// A patch: what the buffer of a call holds before its output, and the output's length. By id and in a
/// body patch there is no old value; a body patch is plain. In a pass the id is the number of ids, the old value is the ids
/// and the ends, a word each, and the new one is the text.
#[derive(Clone, Copy)]
pub struct Patch<'a> {
    pub kind: Kind,
    pub mode: Mode,
    pub layout: Layout,
    pub id: u32,
    pub old: &'a [u8],
    pub new: &'a [u8],
    pub image: &'a [u8],
    pub room: usize,
}

impl<'a> Patch<'a> {
    fn of(kind: Kind, a: &[u32; ARGUMENTS], buffer: &'a [u8]) -> Patch<'a> {
        let (old, rest) = buffer.split_at(a[2] as usize);
        let (new, rest) = rest.split_at(a[3] as usize);
        let (image, out) = rest.split_at(a[4] as usize);
        let mode = modes(kind)[a[5] as usize];
        Patch { kind, mode, layout: Layout(a[0] as u8), id: a[1], old, new, image, room: out.len() }
    }

    fn reading(&self) -> Reading<'a> {
        Reading { layout: self.layout, image: self.image, slip: None }
    }

    /// The strings that a string patch sets where it is accepted, and their values: by value the lowest with the old one.
    pub fn edits(&self) -> Vec<listed::Edit<'a>> {
        let text = |bytes| std::str::from_utf8(bytes).unwrap();
        match self.kind {
            Kind::ByValue => {
                let found = texts::lowest(&self.reading(), text(self.old));
                found.map(|id| (id as u32, self.new)).into_iter().collect()
            }
            Kind::Pass => self.list().edits(None).unwrap(),
            _ => vec![(self.id, self.new)],
        }
    }

    /// Whether each of these values fits in the place of its string.
    pub fn is_in_place(&self) -> bool {
        let strings = self.reading().strings();
        self.edits().iter().all(|(id, value)| {
            texts::fits_in_place(&strings, *id as usize, std::str::from_utf8(value).unwrap())
        })
    }

    /// The list of a pass.
    pub fn list(&self) -> listed::List<'a> {
        let lists = words(self.old);
        let (ids, ends) = lists.split_at(self.id as usize);
        listed::List { ids: ids.to_vec(), text: self.new, ends: ends.to_vec() }
    }

    /// The call, with bytes that fill its room. None where it is too long for a call.
    pub fn call(&self, out: Vec<u8>) -> Option<Call> {
        let inputs = [self.old, self.new, self.image].concat();
        if inputs.len() > LONGEST || out.len() > LONGEST {
            return None;
        }
        let lengths = [self.old, self.new, self.image].map(|part| part.len() as u32);
        let mode = (self.mode == Mode::Even).into();
        let arguments = [&[self.layout.0.into(), self.id], &lengths[..], &[mode]].concat();
        let function = &FUNCTIONS[self.kind as usize];
        Some(Call::new(function, &arguments, [inputs, out].concat()))
    }
}

fn run(kind: Kind, a: &[u32; ARGUMENTS], buffer: &mut [u8]) -> Answered {
    let patch = Patch::of(kind, a, buffer);
    let image = judge(&patch).answer?;
    let at = buffer.len() - patch.room;
    buffer[at..at + image.len()].copy_from_slice(&image);
    Ok(vec![image.len() as u32])
}

fn patch(call: &Call) -> Patch<'_> {
    let is_called = |function: &Function| function.number == call.function.number;
    let kind = KINDS[FUNCTIONS.iter().position(is_called).unwrap()];
    Patch::of(kind, &call.arguments, &call.buffer)
}

/// The departure of the Rust that a call shows.
pub fn departure(call: &Call) -> Option<Departure> {
    judge(&patch(call)).departure
}

/// Mistakes that a program could make with the modes, or with a list.
#[derive(Clone, Copy, Debug)]
pub enum Slip {
    Packing(packing::Slip),
    Pass(listed::Slip),
}

pub fn slips() -> Vec<Slip> {
    let with_modes = packing::slips().into_iter().map(Slip::Packing);
    with_modes.chain(listed::slips().into_iter().map(Slip::Pass)).collect()
}

/// Whether the second reading with a slip answers a call otherwise.
pub fn finds(call: &Call, slip: Slip) -> bool {
    let patch = patch(call);
    match (patch.kind, slip) {
        (Kind::Body, _) => false,
        (Kind::Pass, Slip::Packing(slip)) => {
            pass::read(&patch, None, None) != pass::read(&patch, Some(slip), None)
        }
        (Kind::Pass, Slip::Pass(slip)) => {
            pass::read(&patch, None, None) != pass::read(&patch, None, Some(slip))
        }
        (_, Slip::Packing(slip)) => even::read(&patch, None) != even::read(&patch, Some(slip)),
        _ => false,
    }
}
