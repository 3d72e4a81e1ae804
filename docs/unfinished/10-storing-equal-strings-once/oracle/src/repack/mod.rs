//! Call 41: equal strings stored once, document 02, No. 10. The Rust has no such call, so the answer is that of **a second
//! reading**; and each is held to what the request says of it, by the Rust's patches too.

mod draw;
mod fixed;
mod held;
pub mod near;
mod places;
pub mod reading;
mod sharing;
pub mod slip;
mod writing;

use crate::family::Argument::*;
use crate::family::{Answered, Family, Function};
use crate::image::layout::Layout;
use crate::index::{in_bytes, lent, LIST};
use crate::job::packing::{Mode, MODES};
use crate::patches::judgement::UNLISTED;
use crate::stream::{Call, ARGUMENTS};
use reading::{Asked, Packer};
use slip::Slip;

/// The longest image, and the longest output.
const IMAGE: usize = 335_872;
const OUTPUT: usize = 28_672;

pub static FAMILY: Family = Family {
    name: "repack",
    functions: &FUNCTIONS,
    longest_buffer: IMAGE + 4 * LIST + OUTPUT,
    fixed: fixed::calls,
    random: draw::call,
    departures: &[],
};

static FUNCTIONS: [Function; 1] = [Function {
    number: 41,
    name: "repack",
    arguments: &[
        Word("layout"),
        Flag("even"),
        Word("length of the image"),
        Word("words of the work space"),
    ],
    run,
}];

fn run(a: &[u32; ARGUMENTS], buffer: &mut [u8]) -> Answered {
    let (asked, work, out) = taken_apart(a, buffer);
    let words = work.len() / 4;
    let answer = lent(work, |work| Packer(None).repack(&asked, work, out));
    if !held::is_shown(&asked, words, out, answer) {
        return Err(UNLISTED);
    }
    Ok(vec![answer?])
}

/// What a call asks, the bytes of its work space, and its output.
fn taken_apart<'a>(
    a: &[u32; ARGUMENTS],
    buffer: &'a mut [u8],
) -> (Asked<'a>, &'a mut [u8], &'a mut [u8]) {
    let (image, rest) = buffer.split_at_mut(a[2] as usize);
    let (work, out) = rest.split_at_mut(4 * a[3] as usize);
    let (layout, mode) = (Layout(a[0] as u8), MODES[a[1] as usize]);
    (Asked { layout, mode, image }, work, out)
}

impl Asked<'_> {
    fn call(&self, work: &[u32], out: &[u8]) -> Call {
        let flags = [self.layout.0.into(), (self.mode == Mode::Even).into()];
        let lengths = [self.image.len() as u32, work.len() as u32];
        let buffer = [self.image, &in_bytes(work), out].concat();
        Call::new(&FUNCTIONS[0], &[flags, lengths].concat(), buffer)
    }
}

// ---- Mistakes on purpose.

/// Those that the fixed calls have to find.
pub fn slips() -> Vec<Slip> {
    [slip::REFUSING, slip::COMPARING, slip::PACKING, slip::ENTERING, slip::MOVING, slip::LENDING]
        .concat()
}

/// Whether the reading with a mistake answers a call otherwise, or leaves other bytes.
pub fn finds(call: &Call, slip: Slip) -> bool {
    let answer = |slip| {
        let mut buffer = call.buffer.clone();
        let (asked, work, out) = taken_apart(&call.arguments, &mut buffer);
        (lent(work, |work| Packer(slip).repack(&asked, work, out)), buffer)
    };
    answer(None) != answer(Some(slip))
}
