//! String patches in both modes of document 02, No. 2, where a gap decides: at the storage offset 0x800000, at the limit
//! of an image, and at that of a small record's places. The images are short, since their strings share storage, and a
//! rebuild makes them long.

use oracle::image::layout::{word, Layout};
use oracle::image::reading::Reading;
use oracle::job::packing::{Mode, Slip, MODES};
use oracle::patches::judgement::judge;
use oracle::patches::odd::{due, grown, PAST_FIELD, SHARED};
use oracle::patches::small::Places;
use oracle::patches::{even, Kind, Patch};

use crate::{FAR, LIMIT};

const WIDE: bool = true;
const NARROW: bool = false;

/// String 0 is emptied, in a room for everything.
fn emptied(layout: u8, image: &[u8]) -> Patch<'_> {
    let (kind, mode, layout) = (Kind::ById, Mode::Plain, Layout(layout));
    Patch { kind, mode, layout, id: 0, old: &[], new: &[], image, room: LIMIT }
}

/// We answer so, with one byte to spare.
pub fn is_answered(patch: &Patch, theirs: &Result<Vec<u8>, u32>) -> bool {
    let room = theirs.as_ref().map_or(0, Vec::len) + 1;
    exports::is_answered(&Patch { room, ..*patch }, theirs)
}

/// The last string's offset, and whether it has an overflow pair.
fn last_place(layout: Layout, image: &[u8]) -> (usize, bool) {
    let reading = Reading { layout, image, slip: None };
    let entry = word(image, reading.places().overflow as usize - 4);
    (reading.strings().last().unwrap().start as usize, entry >> 24 == 255)
}

/// The last string goes to these offsets, in plain and in even mode, and to the overflow table from 0x800000 on.
pub fn is_put(patch: Patch, offsets: [usize; 2]) -> bool {
    MODES.into_iter().zip(offsets).all(|(mode, offset)| {
        let patch = Patch { mode, ..patch };
        let theirs = judge(&patch).answer;
        let place = theirs.as_ref().map(|image| last_place(patch.layout, image));
        is_answered(&patch, &theirs) && place == Ok((offset, offset >= FAR))
    })
}

/// So many bytes are before the last strings.
fn is_due(bytes: usize, last: &[(bool, usize)], offsets: [usize; 2]) -> bool {
    is_put(emptied(0, &due(0, bytes, last).image()), offsets)
}

/// The last string gets a wide value, by its id and by its value; string 0 stays.
fn is_due_as_new(bytes: usize, offsets: [usize; 2]) -> bool {
    let bare = due(0, bytes - SHARED, &[(NARROW, 1)]);
    let (image, id) = (bare.image(), bare.strings.len() as u32 - 1);
    let patch = Patch { id, old: b"a", new: "é".as_bytes(), ..emptied(0, &image) };
    [Kind::ById, Kind::ByValue].into_iter().all(|kind| is_put(Patch { kind, ..patch }, offsets))
}

/// The overflow test before the gap, a mistake on purpose, is found here.
fn is_sharp() -> bool {
    let image = due(0, FAR - 1, &[(WIDE, 1)]).image();
    let patch = Patch { mode: Mode::Even, ..emptied(0, &image) };
    !is_answered(&patch, &even::read(&patch, Some(Slip::OverflowBeforeGap)))
}

/// The numbers that refuse it in plain and in even mode, 0 for none.
fn gives(layout: u8, image: Vec<u8>, numbers: [u32; 2]) -> bool {
    MODES.into_iter().zip(numbers).all(|(mode, number)| {
        let patch = Patch { mode, ..emptied(layout, &image) };
        let theirs = even::read(&patch, None);
        is_answered(&patch, &theirs) && theirs.err().unwrap_or(0) == number
    })
}

fn ends_at(tail: usize, padding: usize, more: usize, numbers: [u32; 2]) -> bool {
    gives(0, grown(0, tail, padding, None, more), numbers)
}

fn has_body_at(tail: usize, padding: usize, body: usize, numbers: [u32; 2]) -> bool {
    let function = Places { body, ..Places::default() };
    gives(0, grown(0, tail, padding, Some(function), body), numbers)
}

fn has_info_at(tail: usize, info: usize, numbers: [u32; 2]) -> bool {
    let function = Places { info: Some(info), ..Places::default() };
    gives(1, grown(1, tail, 0, Some(function), info), numbers)
}

pub const CHECKS: [(&str, fn() -> bool); 18] = [
    ("a wide string due at 0x7FFFFF", || is_due(FAR - 1, &[(WIDE, 1)], [FAR - 1, FAR])),
    ("an empty wide one there", || is_due(FAR - 1, &[(WIDE, 0)], [FAR - 1, FAR])),
    ("a wide one as the new value there", || is_due_as_new(FAR - 1, [FAR - 1, FAR])),
    ("a narrow one there", || is_due(FAR - 1, &[(NARROW, 1)], [FAR - 1; 2])),
    ("a wide one at 0x7FFFFE", || is_due(FAR - 2, &[(WIDE, 1)], [FAR - 2; 2])),
    ("a wide one at 0x800000", || is_due(FAR, &[(WIDE, 1)], [FAR; 2])),
    ("a wide one due at 0x800001", || is_due(FAR + 1, &[(WIDE, 1)], [FAR + 1, FAR + 2])),
    ("a narrow one behind a gap", || is_due(FAR - 3, &[(WIDE, 1), (NARROW, 1)], [FAR - 1, FAR])),
    ("the overflow test before the gap", is_sharp),
    ("the gap makes it as long as the limit", || ends_at(LIMIT - 24, 0, 0, [0, 0])),
    ("the gap makes it a byte longer: 11", || ends_at(LIMIT - 24, 0, 1, [0, 11])),
    ("a gap within the padding at the limit", || ends_at(LIMIT - 20, 2, 0, [0, 0])),
    ("a gap within the padding past the limit: 11", || ends_at(LIMIT - 20, 2, 1, [11, 11])),
    ("the gap moves a body to 33,554,431", || has_body_at(PAST_FIELD - 8, 0, 3, [0, 0])),
    ("the gap moves a body past it: 12", || has_body_at(PAST_FIELD - 8, 0, 4, [0, 12])),
    ("a gap within the padding before a body past it: 12", || {
        has_body_at(PAST_FIELD - 4, 2, 4, [12, 12])
    }),
    ("the gap moves an info place to 33,554,431", || has_info_at(PAST_FIELD - 8, 3, [0, 0])),
    ("the gap moves an info place past it: 12", || has_info_at(PAST_FIELD - 8, 4, [0, 12])),
];
