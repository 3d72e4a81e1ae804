//! Equal strings stored once, document 02, No. 10, at limits: 11 and 12 by one on either side, in both modes, also where a rebuild
//! of the same strings, which shares nothing, is far past them; and the storage offset 0x800000, by which overflow entries are
//! judged of the place that a string shares.

use exports::OLD;
use oracle::image::layout::{word, Layout, STRINGS};
use oracle::image::reading::{Reading, Small};
use oracle::index::images::garbage;
use oracle::job::packing::{Mode, MODES};
use oracle::patches::odd::PAST_FIELD;
use oracle::patches::small::Places;
use oracle::patches::{Kind, Patch};
use oracle::repack::near::{Filled, Near, Said};
use oracle::repack::reading::{Asked, Packer, WORDS};
use oracle::repack::slip::Slip::{self, *};
use oracle::repack::slip::AT_LIMITS;

use crate::{FAR, LIMIT};

/// The bytes of a string that comes to be long.
const LONG: usize = 65_000;

/// As long as the limit and one gap less.
const AT_LIMIT: Near = Near {
    layout: 0,
    long: LONG,
    tail: LIMIT - 24,
    padding: 0,
    function: None,
    tail_bytes: 0,
    alike: 0,
};
const PADDED: Near = Near { tail: LIMIT - 20, padding: 2, ..AT_LIMIT };

/// Such images with a small record, whose places come to stand about the last that it holds.
const AT_FIELD: Near = Near { tail: PAST_FIELD - 8, ..AT_LIMIT };
const PADDED_FIELD: Near = Near { tail: PAST_FIELD - 4, padding: 2, ..AT_LIMIT };

/// The answer of the second reading, with a mistake or none, and what the work space, of one word more than is asked for or of
/// fewer, and the output then hold.
type Answer = (Result<u32, u32>, Vec<u32>, Vec<u8>);

fn words(asked: &Asked, less: usize) -> Vec<u32> {
    garbage(WORDS * asked.count() + 1 - less)
}

fn read(asked: &Asked, less: usize, room: usize, slip: Option<Slip>) -> Answer {
    let (mut work, mut out) = (words(asked, less), vec![OLD; room]);
    (Packer(slip).repack(asked, &mut work, &mut out), work, out)
}

/// Our export answers so, and leaves the same.
fn is_answered(asked: &Asked, less: usize, (answer, work, out): &Answer) -> bool {
    let (before, old) = (words(asked, less), vec![OLD; out.len()]);
    exports::repack::is_repacked(asked, answer, [&before, work], [&old, out])
}

fn is_refused(asked: &Asked, less: usize, number: u32) -> bool {
    let answer = read(asked, less, 0, None);
    answer.0 == Err(number) && is_answered(asked, less, &answer)
}

/// The image that comes out, as long as it has to be, with one byte to spare.
fn made(asked: &Asked) -> Option<Vec<u8>> {
    let (answer, work, mut out) = read(asked, 0, LIMIT + 1, None);
    // It is the same with less room behind it.
    out.truncate(answer.ok()? as usize + 1);
    let answer = (answer, work, out);
    is_answered(asked, 0, &answer).then_some(answer.2)
}

// ---- 11 and 12.

fn asked<'a>(near: &Near, mode: Mode, image: &'a [u8]) -> Asked<'a> {
    Asked { layout: Layout(near.layout), mode, image }
}

/// The numbers that refuse it in plain and in even mode; 13 where there is nothing but the room, of which there is none.
fn gives(near: Near, numbers: [u32; 2]) -> bool {
    let image = near.image();
    MODES.into_iter().zip(numbers).all(|(mode, number)| {
        let number = if number == 0 { 13 } else { number };
        is_refused(&asked(&near, mode, &image), 0, number)
    })
}

/// An image comes out in a mode, of a length.
fn makes(near: Near, mode: Mode, length: usize) -> bool {
    let made = made(&asked(&near, mode, &near.image()));
    made.is_some_and(|made| made.len() == length + 1)
}

fn with_body(near: Near, body: usize) -> Near {
    Near { function: Some(Places { body, ..Places::default() }), tail_bytes: body, ..near }
}

fn with_info(layout: u8, near: Near, info: usize) -> Near {
    let function = Some(Places { info: Some(info), ..Places::default() });
    Near { layout, function, tail_bytes: info, ..near }
}

/// The same numbers where some strings are alike, though a rebuild, for which the last one is emptied, is refused.
fn gives_shared(near: Near, rebuilt: u32, numbers: [u32; 2]) -> bool {
    let near = Near { alike: 3, ..near };
    let image = near.image();
    let id = word(&image, STRINGS) - 1;
    let (kind, layout, old, new, room) = (Kind::ById, Layout(near.layout), &[][..], &[][..], 0);
    let is_rebuilt = |mode| {
        let patch = Patch { kind, mode, layout, id, old, new, image: &image, room };
        exports::is_answered(&patch, &Err(rebuilt))
    };
    gives(near, numbers) && MODES.into_iter().all(is_rebuilt)
}

/// Work space that is too short comes before 11 and 12, and 11 before 12.
fn comes_before() -> bool {
    let past_limit = with_body(Near { tail: LIMIT, ..AT_LIMIT }, 1);
    let past_field = with_body(Near { tail: PAST_FIELD, ..AT_LIMIT }, 1);
    [(past_limit, 11), (past_field, 12)].into_iter().all(|(near, number)| {
        let image = near.image();
        MODES.into_iter().all(|mode| {
            let asked = asked(&near, mode, &image);
            is_refused(&asked, 0, number)
                && is_refused(&asked, 1, number)
                && is_refused(&asked, 2, 13)
        })
    })
}

// ---- The offset 0x800000.

const WIDE: bool = true;
const NARROW: bool = false;

fn filled(bytes: usize, others: &[Said]) -> Vec<u8> {
    Filled { layout: 0, long: LONG, bytes, others }.bare().image()
}

/// Behind so many bytes of other strings these go to the offsets, in plain and in even mode: to the overflow table from 0x800000
/// on.
fn is_put(bytes: usize, others: &[Said], offsets: [&[usize]; 2]) -> bool {
    let image = filled(bytes, others);
    MODES.into_iter().zip(offsets).all(|(mode, offsets)| {
        let asked = Asked { layout: Layout(0), mode, image: &image };
        let Some(made) = made(&asked) else { return false };
        let reading = Reading { layout: Layout(0), image: &made[..made.len() - 1], slip: None };
        let (small, strings) = (reading.places().small as usize, reading.strings());
        let first = strings.len() - others.len();
        let is_small = |id: usize| !Small(word(&made, small + 4 * id)).overflows();
        let is_there = |(i, offset): (usize, &usize)| {
            strings[first + i].start as usize == *offset && is_small(first + i) == (*offset < FAR)
        };
        offsets.len() == others.len() && offsets.iter().enumerate().all(is_there)
    })
}

/// Three strings, the last like the first.
fn is_shared_at(bytes: usize, wide: bool, count: usize, offsets: [[usize; 3]; 2]) -> bool {
    let others = [(wide, 0, count), (NARROW, 2, 3), (wide, 0, count)];
    is_put(bytes, &others, offsets.each_ref().map(|offsets| &offsets[..]))
}

// ---- Mistakes on purpose.

/// An image of strings near a limit finds each that no call of a stream does.
fn is_found(slip: Slip) -> bool {
    let past_limit = Near { tail_bytes: 1, ..AT_LIMIT };
    let [within_field, past_field] = [3, 4].map(|body| with_body(AT_FIELD, body));
    let (near, mode, less) = match slip {
        WorkAfterLimit => (past_limit, Mode::Even, 2),
        LimitUnshared => (Near { alike: 3, ..AT_LIMIT }, Mode::Plain, 0),
        FieldUnshared => (Near { alike: 3, ..within_field }, Mode::Plain, 0),
        LimitOfPlain => (past_limit, Mode::Even, 0),
        LimitOfEven => (past_limit, Mode::Plain, 0),
        FieldOfPlain => (past_field, Mode::Even, 0),
        FieldOfEven => (past_field, Mode::Plain, 0),
        FieldOfBodiesAlone => (with_info(1, AT_FIELD, 4), Mode::Even, 0),
        FieldOfInfosAlone => (past_field, Mode::Even, 0),
        slip => return is_found_in_tables(slip),
    };
    let image = near.image();
    let asked = asked(&near, mode, &image);
    read(&asked, less, 0, Some(slip)) != read(&asked, less, 0, None)
}

/// So does one of strings about the offset 0x800000.
fn is_found_in_tables(slip: Slip) -> bool {
    let (bytes, mode) = match slip {
        OverflowByCursor => (FAR - 2, Mode::Plain),
        OverflowByLengthAlone => (FAR, Mode::Plain),
        OverflowBeforeGap => (FAR - 1, Mode::Even),
        _ => return false,
    };
    let image = filled(bytes, &[(WIDE, 0, 1), (NARROW, 2, 3), (WIDE, 0, 1)]);
    let asked = Asked { layout: Layout(0), mode, image: &image };
    read(&asked, 0, 2 * FAR, Some(slip)) != read(&asked, 0, 2 * FAR, None)
}

pub const CHECKS: [(&str, fn() -> bool); 20] = [
    ("the gap makes it as long as the limit", || {
        gives(AT_LIMIT, [0, 0]) && makes(AT_LIMIT, Mode::Even, LIMIT)
    }),
    ("the gap makes it a byte longer: 11", || gives(Near { tail_bytes: 1, ..AT_LIMIT }, [0, 11])),
    ("as long as the limit in both modes", || gives(PADDED, [0, 0])),
    ("a byte longer in both modes: 11", || gives(Near { tail_bytes: 1, ..PADDED }, [11, 11])),
    ("a body at 33,554,431", || {
        gives(with_body(AT_FIELD, 3), [0, 0]) && gives(with_body(PADDED_FIELD, 3), [0, 0])
    }),
    ("a body past it: 12", || {
        gives(with_body(AT_FIELD, 4), [0, 12]) && gives(with_body(PADDED_FIELD, 4), [12, 12])
    }),
    ("an info place at 33,554,431", || gives(with_info(1, AT_FIELD, 3), [0, 0])),
    ("an info place past it: 12", || {
        gives(with_info(1, AT_FIELD, 4), [0, 12]) && gives(with_info(4, PADDED_FIELD, 4), [12, 12])
    }),
    ("sharing brings it back to the limit", || gives_shared(AT_LIMIT, 11, [0, 0])),
    ("sharing brings it back to a byte more: 11", || {
        gives_shared(Near { tail_bytes: 1, ..AT_LIMIT }, 11, [0, 11])
    }),
    ("sharing brings a body back to 33,554,431", || {
        let near = with_body(AT_FIELD, 3);
        gives_shared(near, 12, [0, 0])
            && makes(Near { alike: 3, ..near }, Mode::Even, PAST_FIELD + 19)
    }),
    ("sharing brings a body back to one more: 12", || {
        gives_shared(with_body(AT_FIELD, 4), 12, [0, 12])
    }),
    ("13 of the work space before 11 and 12", comes_before),
    ("a narrow string at 0x7FFFFF, shared", || {
        is_shared_at(FAR - 1, NARROW, 1, [[FAR - 1, FAR, FAR - 1]; 2])
    }),
    ("a narrow string at 0x800000, shared", || {
        is_shared_at(FAR, NARROW, 1, [[FAR, FAR + 1, FAR]; 2])
    }),
    ("a wide string due at 0x7FFFFF, shared", || {
        let even = [FAR, FAR + 2, FAR];
        is_shared_at(FAR - 1, WIDE, 1, [[FAR - 1, FAR + 1, FAR - 1], even])
    }),
    ("an empty wide string there, shared", || {
        is_shared_at(FAR - 1, WIDE, 0, [[FAR - 1; 3], [FAR; 3]])
    }),
    ("a wide string at 0x7FFFFE, shared", || {
        is_shared_at(FAR - 2, WIDE, 1, [[FAR - 2, FAR, FAR - 2]; 2])
    }),
    ("a string that ends before 0x800000, shared from behind it", || {
        let others = [(NARROW, 4, 5), (WIDE, 8, 9), (NARROW, 4, 5)];
        is_put(FAR - 9, &others, [&[FAR - 9, FAR - 4, FAR - 9]; 2])
    }),
    ("mistakes that no call finds", || AT_LIMITS.iter().all(|slip| is_found(*slip))),
];
