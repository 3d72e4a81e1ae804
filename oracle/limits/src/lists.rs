//! The pass of document 02, No. 4, at limits: 11 and 12 of the end image alone, by one on either side, where a single step
//! goes far past them; and the storage offset 0x800000.

use oracle::image::layout::Layout;
use oracle::job::packing::{Mode, MODES};
use oracle::patches::odd::{due, grown, PAST_FIELD, SHARED};
use oracle::patches::orders::Step;
use oracle::patches::small::{Bare, Places};
use oracle::patches::{even, pass, Kind, Patch};

use crate::modes::{is_answered, is_put};
use crate::{FAR, LIMIT};

type Edits<'a> = [(u32, &'a [u8])];

/// String 0 keeps its length, and string 1 is emptied, which has as many bytes.
fn emptied() -> [(u32, Vec<u8>); 2] {
    [(0, vec![b'x'; SHARED]), (1, vec![])]
}

fn with_pass(image: &[u8], edits: &Edits, holds: impl Fn(Patch) -> bool) -> bool {
    let Step { kind, id, old, new } = &Step::pass(edits);
    let (mode, layout) = (Mode::Plain, Layout(0));
    holds(Patch { kind: *kind, mode, layout, id: *id, old, new, image, room: LIMIT })
}

/// The numbers that refuse the pass in plain and in even mode, 0 for none; and the one that its first step meets, alone.
fn gives(image: &[u8], edits: &Edits, first: u32, numbers: [u32; 2]) -> bool {
    with_pass(image, edits, |patch| {
        MODES.into_iter().zip(numbers).all(|(mode, number)| {
            let patch = Patch { mode, ..patch };
            let (id, new) = edits[0];
            let step = even::read(&Patch { kind: Kind::ById, id, old: &[], new, ..patch }, None);
            let theirs = pass::read(&patch, None, None);
            is_answered(&patch, &theirs)
                && theirs.err().unwrap_or(0) == number
                && step.err().unwrap_or(0) == first
        })
    })
}

fn gives_back(image: Vec<u8>, first: u32, numbers: [u32; 2]) -> bool {
    let edits = emptied();
    gives(&image, &edits.each_ref().map(|(id, value)| (*id, &value[..])), first, numbers)
}

fn has_body_at(body: usize, numbers: [u32; 2]) -> bool {
    let function = Places { body, ..Places::default() };
    gives_back(grown(0, PAST_FIELD - 8, 0, Some(function), body), 12, numbers)
}

/// The last string goes to these offsets.
fn is_due(bytes: usize, last: (bool, usize), offsets: [usize; 2]) -> bool {
    let edits = emptied();
    let edits = edits.each_ref().map(|(id, value)| (*id, &value[..]));
    with_pass(&due(0, bytes, &[last]).image(), &edits, |patch| is_put(patch, offsets))
}

/// Two values, each of which an image can hold, make one that is so much longer than the limit.
fn long_values(more: usize, numbers: [u32; 2]) -> bool {
    let strings = vec![(false, false, 0, 0); 2];
    let image = Bare { strings, ..Bare::default() }.image();
    // Each has an overflow pair.
    let size = LIMIT - image.len() - 16;
    let values = [size / 2, size - size / 2 + more].map(|size| vec![b'x'; size]);
    gives(&image, &[(1, &values[0]), (0, &values[1])], 0, numbers)
}

pub const CHECKS: [(&str, fn() -> bool); 9] = [
    ("a list brings it back to the limit", || {
        gives_back(grown(0, LIMIT - 24, 0, None, 0), 11, [0, 0])
    }),
    ("a list brings it back to a byte more: 11", || {
        gives_back(grown(0, LIMIT - 24, 0, None, 1), 11, [0, 11])
    }),
    ("a list brings a body back to 33,554,431", || has_body_at(3, [0, 0])),
    ("a list brings a body back to one more: 12", || has_body_at(4, [0, 12])),
    ("a wide string of a pass due at 0x7FFFFF", || is_due(FAR - 1, (true, 1), [FAR - 1, FAR])),
    ("a narrow one there", || is_due(FAR - 1, (false, 1), [FAR - 1; 2])),
    ("a narrow one at 0x800000", || is_due(FAR, (false, 1), [FAR; 2])),
    ("two long values up to the limit", || long_values(0, [0, 0])),
    ("two long values past the limit: 11", || long_values(1, [11, 11])),
];
