//! Call 40: why a string patch rebuilds, document 02, No. 6. The Rust does not tell, so the answer is that of **a second
//! reading**; and each is held to the patcher, which has to take the path that is told.

mod draw;
mod fixed;
mod held;
pub mod near;
mod overlap;
pub mod reading;
mod slip;

use crate::family::Argument::*;
use crate::family::{halves, long_at, Answered, Family, Function};
use crate::image::layout::Layout;
use crate::index::slip::FILLING;
use crate::index::{in_bytes, lent, LIST};
use crate::job::packing::{Mode, MODES};
use crate::patches::judgement::UNLISTED;
use crate::stream::{Call, ARGUMENTS};
use reading::{Asked, Mistake, Reader, Reason};

/// The longest value and image together.
const INPUTS: usize = 258_048;

pub static FAMILY: Family = Family {
    name: "why",
    functions: &FUNCTIONS,
    longest_buffer: INPUTS + 4 * LIST,
    fixed: fixed::calls,
    random: draw::call,
    departures: &[],
};

static FUNCTIONS: [Function; 1] = [Function {
    number: 40,
    name: "why",
    arguments: &[
        Word("layout"),
        Flag("even"),
        LongLow("id"),
        LongHigh("id"),
        Word("length of the value"),
        Word("length of the image"),
    ],
    run,
}];

fn run(a: &[u32; ARGUMENTS], buffer: &mut [u8]) -> Answered {
    let (asked, index) = taken_apart(a, buffer);
    let answer = lent(index, |index| Reader(None).why(&asked, index));
    if !held::is_shown(&asked, &answer) {
        return Err(UNLISTED);
    }
    Ok(answer?.words().to_vec())
}

/// What a call asks, and the bytes of its index.
fn taken_apart<'a>(a: &[u32; ARGUMENTS], buffer: &'a mut [u8]) -> (Asked<'a>, &'a mut [u8]) {
    let (inputs, index) = buffer.split_at_mut((a[4] + a[5]) as usize);
    let (value, image) = inputs.split_at(a[4] as usize);
    let (layout, mode) = (Layout(a[0] as u8), MODES[a[1] as usize]);
    (Asked { layout, mode, id: long_at(a, 2), value, image }, index)
}

impl Asked<'_> {
    fn call(&self, index: &[u32]) -> Call {
        let lengths = [self.value, self.image].map(|part| part.len() as u32);
        let flags = [self.layout.0.into(), (self.mode == Mode::Even).into()];
        let arguments = [flags, halves(self.id), lengths].concat();
        let buffer = [self.value, self.image, &in_bytes(index)].concat();
        Call::new(&FUNCTIONS[0], &arguments, buffer)
    }
}

// ---- Mistakes on purpose.

pub fn slips() -> Vec<Mistake> {
    let groups =
        [slip::REFUSING, slip::CHOOSING, slip::MEASURING, slip::OVERLAPPING, slip::LENDING];
    let filling = FILLING.iter().map(|slip| Mistake::Filling(*slip));
    filling.chain(groups.concat().into_iter().map(Mistake::Reason)).collect()
}

/// Whether the reading with a mistake answers a call otherwise, or leaves another index.
pub fn finds(call: &Call, mistake: Mistake) -> bool {
    let answer = |mistake| -> (Result<Reason, u32>, Vec<u8>) {
        let mut buffer = call.buffer.clone();
        let (asked, index) = taken_apart(&call.arguments, &mut buffer);
        (lent(index, |index| Reader(mistake).why(&asked, index)), buffer)
    };
    answer(None) != answer(Some(mistake))
}
