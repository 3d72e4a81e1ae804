//! Calls 37 to 39: an index of an image's strings, filled and looked up, and the listing that is made with one. The Rust
//! has none, so all answers are those of **a second reading** of documents 01 and 02.

pub mod draw;
mod fixed;
pub mod images;
mod listing;
mod lookup;
mod parts;
pub mod reading;
pub mod slip;

use crate::family::Argument::*;
use crate::family::{halves, long_at, Answered, Family, Function};
use crate::image::layout::{word, Layout, STRINGS};
use crate::stream::{words, Call, ARGUMENTS};
use reading::Reader;
use slip::Slip;

/// The most words of an index, the longest image with an index behind it, and the longest output.
pub const LIST: usize = 1_024;
const INPUTS: usize = 65_536 + 4 * LIST;
const OUTPUT: usize = 28_672;

pub static FAMILY: Family = Family {
    name: "index",
    functions: &FUNCTIONS,
    longest_buffer: INPUTS + OUTPUT,
    fixed: fixed::calls,
    random: draw::call,
    departures: &[],
};

static FUNCTIONS: [Function; 3] = [
    Function {
        number: 37,
        name: "fill_index",
        arguments: &[Word("layout"), Word("length of the image")],
        run: |a, buffer| filled(Reader(None), a, buffer),
    },
    Function {
        number: 38,
        name: "look_up",
        arguments: &[LongLow("count"), LongHigh("count"), LongLow("id"), LongHigh("id")],
        run: |a, buffer| looked_up(Reader(None), a, buffer),
    },
    Function {
        number: 39,
        name: "list",
        arguments: &[
            Word("layout"),
            Word("length of the image"),
            Word("words of the index"),
            LongLow("from"),
            LongHigh("from"),
        ],
        run: |a, buffer| listed(Reader(None), a, buffer),
    },
];

type Run = fn(Reader, &[u32; ARGUMENTS], &mut [u8]) -> Answered;

/// In the order of `FUNCTIONS`, with the mistakes that each can make.
const RUNS: [(Run, &[&[Slip]]); 3] = [
    (filled, &[slip::FILLING, slip::ANSWERING]),
    (looked_up, &[slip::LOOKING]),
    (listed, &[slip::FILLING, slip::LISTING]),
];

fn filled(reader: Reader, a: &[u32; ARGUMENTS], buffer: &mut [u8]) -> Answered {
    let (image, index) = buffer.split_at_mut(a[1] as usize);
    lent(index, |index| Ok(vec![reader.fill(Layout(a[0] as u8), image, index)?]))
}

fn looked_up(reader: Reader, a: &[u32; ARGUMENTS], buffer: &mut [u8]) -> Answered {
    lent(buffer, |index| Ok(reader.look_up(index, long_at(a, 0), long_at(a, 2))?.to_vec()))
}

fn listed(reader: Reader, a: &[u32; ARGUMENTS], buffer: &mut [u8]) -> Answered {
    let (image, rest) = buffer.split_at_mut(a[1] as usize);
    let (index, out) = rest.split_at_mut(4 * a[2] as usize);
    let (layout, from) = (Layout(a[0] as u8), long_at(a, 3));
    lent(index, |index| Ok(vec![reader.list(layout, image, from, index, out)?]))
}

/// Lends bytes as words, which stay as they are left.
pub fn lent<T>(bytes: &mut [u8], to: impl FnOnce(&mut [u32]) -> T) -> T {
    let mut index = words(bytes);
    let answered = to(&mut index);
    bytes.copy_from_slice(&in_bytes(&index));
    answered
}

pub fn in_bytes(index: &[u32]) -> Vec<u8> {
    index.iter().flat_map(|word| word.to_le_bytes()).collect()
}

/// An index filled from an image that is admitted.
pub fn index_of(layout: Layout, image: &[u8]) -> Vec<u32> {
    let mut index = vec![0; 3 * word(image, STRINGS) as usize];
    Reader(None).fill(layout, image, &mut index).unwrap();
    index
}

/// All that is listed of an image that is admitted.
fn listing_of(layout: Layout, image: &[u8]) -> Vec<u8> {
    let mut out = vec![0; 1 << 20];
    let length = Reader(None).list(layout, image, 0, &mut index_of(layout, image), &mut out);
    out.truncate(length.unwrap() as usize);
    out
}

// ---- Calls.

fn filling(layout: Layout, image: &[u8], index: &[u32]) -> Call {
    let arguments = [layout.0.into(), image.len() as u32];
    Call::new(&FUNCTIONS[0], &arguments, [image, &in_bytes(index)].concat())
}

fn looking_up(index: &[u32], count: u64, id: u64) -> Call {
    Call::new(&FUNCTIONS[1], &[halves(count), halves(id)].concat(), in_bytes(index))
}

fn listing(layout: Layout, image: &[u8], index: &[u32], from: u64, out: &[u8]) -> Call {
    let lengths = [layout.0.into(), image.len() as u32, index.len() as u32];
    let arguments = [&lengths[..], &halves(from)].concat();
    Call::new(&FUNCTIONS[2], &arguments, [image, &in_bytes(index), out].concat())
}

// ---- Mistakes on purpose.

/// Each mistake, with the place in `FUNCTIONS` of the one that makes it: its own calls have to find it.
pub fn slips() -> Vec<(usize, Slip)> {
    let of = |(i, (_, groups)): (usize, &(Run, &[&[Slip]]))| -> Vec<(usize, Slip)> {
        groups.concat().into_iter().map(|slip| (i, slip)).collect()
    };
    RUNS.iter().enumerate().flat_map(of).collect()
}

pub fn named((i, slip): (usize, Slip)) -> String {
    format!("{}: {slip:?}", FUNCTIONS[i].name)
}

/// Whether the reading with a slip answers a call otherwise, or leaves other bytes.
pub fn finds(call: &Call, (i, slip): (usize, Slip)) -> bool {
    let answer = |slip| {
        let mut buffer = call.buffer.clone();
        (RUNS[i].0(Reader(slip), &call.arguments, &mut buffer), buffer)
    };
    call.function.number == FUNCTIONS[i].number && answer(None) != answer(Some(slip))
}
