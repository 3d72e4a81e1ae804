//! Why a patch rebuilds, document 02, No. 6, at the limits of 11 and 12 by one on either side, in both modes: where string 0
//! stands alone the edit is in place, whatever a rebuild would give; where another lies over it, or where the value has
//! another length or is not ASCII, it is the rebuild's number, or the reason.

use oracle::image::layout::Layout;
use oracle::index::images::{count_of, garbage};
use oracle::job::packing::{Mode, MODES};
use oracle::patches::odd::PAST_FIELD;
use oracle::patches::small::Places;
use oracle::patches::{Kind, Patch};
use oracle::why::near::Near;
use oracle::why::reading::{Asked, Reader, Reason};

use crate::LIMIT;

/// As long as the limit and one gap less, where a rebuild makes it.
const AT_LIMIT: Near = Near {
    layout: 0,
    shared: 199_500,
    tail: LIMIT - 24,
    padding: 0,
    value: "wxyz",
    function: None,
    tail_bytes: 0,
    overlapped: true,
};

/// Such an image with a small record, whose places come to stand about the last that it holds.
const AT_FIELD: Near = Near { tail: PAST_FIELD - 8, ..AT_LIMIT };

/// The second reading and our export answer so, in an index with one word more than it takes; and our patcher, with no
/// room at all, gives the same number, or 13 where it would accept.
fn is_told(asked: &Asked, less: usize, answer: Result<Reason, u32>) -> bool {
    let before = garbage(3 * count_of(asked.image) + 1 - less);
    let mut after = before.clone();
    let Asked { layout, mode, id, value, image } = *asked;
    let (kind, id, old, new, room) = (Kind::ById, id as u32, &[][..], value, 0);
    let patch = Patch { kind, mode, layout, id, old, new, image, room };
    let patched = answer.err().unwrap_or(13);
    Reader(None).why(asked, &mut after) == answer
        && exports::why::is_told(asked, &answer, [&before, &after])
        && (answer == Err(13) || exports::is_answered(&patch, &Err(patched)))
}

fn asked<'a>(near: &Near, mode: Mode, image: &'a [u8]) -> Asked<'a> {
    Asked { layout: Layout(near.layout), mode, id: 0, value: near.value.as_bytes(), image }
}

/// The numbers that refuse it in plain and in even mode, 0 for none, where the reason is told. One has the last id.
fn gives(near: Near, reason: fn(u32) -> Reason, numbers: [u32; 2]) -> bool {
    let image = near.image();
    let last = count_of(&image) as u32 - 1;
    MODES.into_iter().zip(numbers).all(|(mode, number)| {
        let answer = if number == 0 { Ok(reason(last)) } else { Err(number) };
        is_told(&asked(&near, mode, &image), 0, answer)
    })
}

/// These where another string lies over string 0; in place where none does.
fn rebuilds(near: Near, numbers: [u32; 2]) -> bool {
    gives(near, Reason::Overlap, numbers)
        && gives(Near { overlapped: false, ..near }, |_| Reason::InPlace, [0, 0])
}

/// With a value by one longer, and one that is not ASCII.
fn with_other_values(near: Near, numbers: [u32; 2]) -> bool {
    let alone = Near { overlapped: false, ..near };
    gives(Near { value: "vwxyz", ..alone }, |_| Reason::Lengths(4, 5), numbers)
        && gives(Near { value: "éé", ..alone }, |_| Reason::NotAscii, numbers)
}

fn with_body(near: Near, body: usize) -> Near {
    Near { function: Some(Places { body, ..Places::default() }), tail_bytes: body, ..near }
}

fn with_info(layout: u8, near: Near, info: usize) -> Near {
    let function = Some(Places { info: Some(info), ..Places::default() });
    Near { layout, function, tail_bytes: info, ..near }
}

/// What comes before 11: an index that is too short, an id that there is not, a value that is no UTF-8.
fn comes_before() -> bool {
    let near = Near { tail: LIMIT, ..AT_LIMIT };
    let image = near.image();
    MODES.into_iter().all(|mode| {
        let asked = asked(&near, mode, &image);
        let absent = Asked { id: count_of(&image) as u64, ..asked };
        is_told(&asked, 0, Err(11))
            && is_told(&asked, 1, Err(11))
            && is_told(&asked, 2, Err(13))
            && is_told(&absent, 2, Err(13))
            && is_told(&absent, 1, Err(7))
            && is_told(&Asked { value: b"wxy\x80", ..asked }, 1, Err(8))
    })
}

const PADDED: Near = Near { tail: LIMIT - 20, padding: 2, ..AT_LIMIT };
const PADDED_FIELD: Near = Near { tail: PAST_FIELD - 4, padding: 2, ..AT_LIMIT };

pub const CHECKS: [(&str, fn() -> bool); 13] = [
    ("the gap makes it as long as the limit", || rebuilds(AT_LIMIT, [0, 0])),
    ("the gap makes it a byte longer: 11", || {
        rebuilds(Near { tail_bytes: 1, ..AT_LIMIT }, [0, 11])
    }),
    ("as long as the limit in both modes", || rebuilds(PADDED, [0, 0])),
    ("a byte longer in both modes: 11", || rebuilds(Near { tail_bytes: 1, ..PADDED }, [11, 11])),
    ("other values at the limit", || with_other_values(AT_LIMIT, [0, 0])),
    ("other values past the limit: 11", || {
        with_other_values(Near { tail_bytes: 1, ..AT_LIMIT }, [0, 11])
    }),
    ("a body at 33,554,431", || {
        rebuilds(with_body(AT_FIELD, 3), [0, 0]) && rebuilds(with_body(PADDED_FIELD, 3), [0, 0])
    }),
    ("a body past it: 12", || {
        rebuilds(with_body(AT_FIELD, 4), [0, 12]) && rebuilds(with_body(PADDED_FIELD, 4), [12, 12])
    }),
    ("other values where a body is past it: 12", || {
        with_other_values(with_body(AT_FIELD, 4), [0, 12])
    }),
    ("an info place at 33,554,431", || rebuilds(with_info(1, AT_FIELD, 3), [0, 0])),
    ("an info place past it: 12", || {
        rebuilds(with_info(1, AT_FIELD, 4), [0, 12])
            && rebuilds(with_info(4, PADDED_FIELD, 4), [12, 12])
    }),
    ("11 before 12", || rebuilds(with_body(PADDED, 1), [11, 11])),
    ("13, 7 and 8 before 11", comes_before),
];
