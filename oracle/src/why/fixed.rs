//! The fixed calls of a reason: small images, each told by its strings, with the answer that they are made for.

use super::near::Near;
use super::reading::{Asked, Reader, Reason, Reason::*};
use crate::image::damage::DAMAGES;
use crate::image::layout::{Layout, LAYOUTS};
use crate::image::maker::{make, SMALL};
use crate::index::images::{broken, count_of, garbage, image, Kinds, KINDS};
use crate::index::index_of;
use crate::job::packing::{Mode, MODES};
use crate::patches::draw::NO_UTF8;
use crate::patches::odd::PAST_FIELD;
use crate::patches::small::Places;
use crate::random::Random;
use crate::stream::Call;

const LIMIT: usize = 67_108_864;

pub fn calls() -> Vec<Call> {
    let mut calls = subsets();
    calls.extend(beside());
    calls.extend(several());
    calls.extend(values());
    calls.extend(chosen());
    calls.extend(refused());
    calls.extend(absent());
    calls.extend(lent());
    calls.extend(damaged());
    calls.extend(limits());
    calls
}

/// Layout and mode of the call with a number: each mode with each layout, in turn.
fn turn(i: usize) -> (Layout, Mode) {
    (LAYOUTS[i / 2 % 5], MODES[i % 2])
}

/// A call with an index as long as it is asked for and one word more, which has to be answered so.
fn answered(asked: &Asked, answer: Result<Reason, u32>) -> Call {
    let index = garbage(3 * count_of(asked.image) + 1);
    assert_eq!(Reader(None).why(asked, &mut index.clone()), answer);
    asked.call(&index)
}

/// Such a call about an image of these strings.
fn told(i: usize, strings: &str, id: u64, value: &[u8], answer: Result<Reason, u32>) -> Call {
    let (layout, mode) = turn(i);
    let image = image(layout, strings, KINDS[i % 3]);
    answered(&Asked { layout, mode, id, value, image: &image }, answer)
}

// ---- Which reason comes first.

/// Every set of the four reasons for a rebuild, in both modes: the first is told, and where there is none it is in place.
fn subsets() -> Vec<Call> {
    let mut calls = vec![];
    for i in 0..32 {
        let [wide, not_ascii, longer, overlapped] = [1, 2, 4, 8].map(|bit| i / 2 & bit != 0);
        let entry = if wide { "w1@2" } else { "N2@2" };
        let other = if overlapped { "n1@3" } else { "n1@4" };
        let value = [["ab", "abc"], ["é", "éa"]][usize::from(not_ascii)][usize::from(longer)];
        let answer = match (wide, not_ascii, longer, overlapped) {
            (true, ..) => Wide,
            (_, true, ..) => NotAscii,
            (_, _, true, _) => Lengths(2, 3),
            (.., true) => Overlap(2),
            _ => InPlace,
        };
        let strings = format!("_9 n2@0 {entry} {other} w1@5");
        calls.push(told(i, &strings, 1, value.as_bytes(), Ok(answer)));
    }
    calls
}

// ---- Overlap.

/// "start < other end and other start < end"
fn overlap((start, end): (usize, usize), (other_start, other_end): (usize, usize)) -> bool {
    start < other_end && other_start < end
}

/// A string of four bytes, of one and of none, and another before it, at each edge, across it, within it, around it and
/// behind it, narrow and wide, with the lower id or the higher one.
fn beside() -> Vec<Call> {
    let mut calls = vec![];
    for (own, starts) in [((4, 8), 2..10), ((5, 6), 3..7), ((5, 5), 3..7)] {
        for (start, (kind, count)) in starts.flat_map(|start| OTHERS.map(|other| (start, other))) {
            let end = start + count * if kind == "w" { 2 } else { 1 };
            let entry = format!("n{}@{}", own.1 - own.0, own.0);
            let other = format!("{kind}{count}@{start}");
            let value = &b"wxyz"[..own.1 - own.0];
            let i = calls.len();
            let id = (i + start) % 2;
            let strings = if id == 0 { [entry, other] } else { [other, entry] };
            let strings = format!("_14 {}", strings.join(" "));
            let is_over = overlap(own, (start, end));
            let answer = if is_over { Overlap(1 - id as u32) } else { InPlace };
            calls.push(told(i, &strings, id as u64, value, Ok(answer)));
        }
    }
    calls
}

const OTHERS: [(&str, usize); 8] =
    [("n", 0), ("n", 1), ("n", 2), ("n", 3), ("n", 5), ("w", 0), ("w", 1), ("w", 2)];

/// Five strings, the asked one in each place among them, and every set of others that overlap it: the lowest is told.
fn several() -> Vec<Call> {
    const OVER: [&str; 4] = ["n2@6", "W1@5", "N0@7", "n3@3"];
    const APART: [&str; 4] = ["n2@8", "W1@9", "N0@4", "n3@1"];
    let mut calls = vec![];
    for i in 0..80 {
        let (own, set) = (i % 5, i / 5);
        // Which of the four has the lowest id is another for each place.
        let other =
            |k: usize| if set & 1 << k != 0 { OVER[(k + own) % 4] } else { APART[(k + own) % 4] };
        let mut strings: Vec<&str> = (0..4).map(other).collect();
        strings.insert(own, "n4@4");
        let is_over = |id: &usize| *id != own && OVER.contains(&strings[*id]);
        let answer = (0..5).find(is_over).map_or(InPlace, |id| Overlap(id as u32));
        let strings = format!("_12 {}", strings.join(" "));
        calls.push(told(i, &strings, own as u64, b"wxyz", Ok(answer)));
    }
    calls
}

// ---- Values and lengths.

/// Values, and what they give for a string of three bytes that stands alone.
const VALUES: [(&[u8], Result<Reason, u32>); 24] = [
    (b"abc", Ok(InPlace)),
    (b"", Ok(Lengths(3, 0))),
    (b"ab", Ok(Lengths(3, 2))),
    (b"abcd", Ok(Lengths(3, 4))),
    // The last of ASCII and the first behind it, in each place; no control letter is outside.
    (b"\x7fbc", Ok(InPlace)),
    (b"a\x7fc", Ok(InPlace)),
    (b"ab\x7f", Ok(InPlace)),
    (b"\0\n\x1f", Ok(InPlace)),
    (b"\0\0\0\0", Ok(Lengths(3, 4))),
    (b"\x7f\x7f", Ok(Lengths(3, 2))),
    ("\u{80}a".as_bytes(), Ok(NotAscii)),
    ("a\u{80}".as_bytes(), Ok(NotAscii)),
    ("\u{80}".as_bytes(), Ok(NotAscii)),
    // As many bytes as the string, as many characters, as many units.
    ("é".as_bytes(), Ok(NotAscii)),
    ("aé".as_bytes(), Ok(NotAscii)),
    ("éa".as_bytes(), Ok(NotAscii)),
    ("abé".as_bytes(), Ok(NotAscii)),
    ("éab".as_bytes(), Ok(NotAscii)),
    ("€".as_bytes(), Ok(NotAscii)),
    ("ééé".as_bytes(), Ok(NotAscii)),
    ("a😀".as_bytes(), Ok(NotAscii)),
    ("ab😀".as_bytes(), Ok(NotAscii)),
    (b"ab\x80", Err(8)),
    (b"\xc3\x29a", Err(8)),
];

/// Each of them for a string that stands alone, one that another overlaps, and a wide one.
fn values() -> Vec<Call> {
    let mut calls = vec![];
    for (i, (value, alone)) in VALUES.into_iter().enumerate() {
        let over = alone.map(|reason| if reason == InPlace { Overlap(0) } else { reason });
        calls.push(told(i, "n2 n3 w1", 1, value, alone));
        calls.push(told(i + 1, "_5 w1@2 n3@1", 1, value, over));
        calls.push(told(i, "n2 W2 n1", 1, value, alone.map(|_| Wide)));
    }
    for (i, value) in NO_UTF8.into_iter().enumerate() {
        calls.push(told(i, "n1 N2", 1, value, Err(8)));
    }
    // The value that it has, narrow and alone, narrow and not, wide.
    calls.push(told(0, "n3", 0, b" !\"", Ok(InPlace)));
    calls.push(told(1, "n3 n1@0", 0, b" !\"", Ok(Overlap(1))));
    calls.push(told(2, "_2 w1@0", 0, "\u{2120}".as_bytes(), Ok(Wide)));
    calls
}

/// Strings that short ones do not show, an id, how many letters the value has, and the answer.
const CHOSEN: [(&str, u64, usize, Reason); 38] = [
    // Empty strings: alone, with others at their place, at the ends of storage.
    ("n0", 0, 0, InPlace),
    ("n0", 0, 1, Lengths(0, 1)),
    ("w0", 0, 0, Wide),
    ("n0 N0 n0@0", 1, 0, InPlace),
    ("n3 n0@0 N0 w0@1", 1, 0, InPlace),
    ("n3 n0@0 N0 w0@1", 2, 0, InPlace),
    ("n3 n0@0 N0 w0@1", 0, 3, Overlap(3)),
    ("n3 n0@1", 1, 0, Overlap(0)),
    // All of a string, by two and by three.
    ("n3 n3@0", 1, 3, Overlap(0)),
    ("n3 N3@0 n3@0", 0, 3, Overlap(1)),
    ("n3 N3@0 n3@0", 2, 3, Overlap(0)),
    // A narrow one within a wide one and around it; wide ones at odd places elsewhere.
    ("_7 w3@0 n2@2", 1, 2, Overlap(0)),
    ("_7 n6@0 W1@3", 0, 6, Overlap(1)),
    ("n1 w1 n2 w2", 2, 2, InPlace),
    ("n1 w1 n2 w2", 0, 1, InPlace),
    ("n1 W1 w0 N2", 3, 2, InPlace),
    // A wide one that ends at it, and one that reaches its first byte; an identifier that would, if it were wide.
    ("_9 w2@0 n3@4", 1, 3, InPlace),
    ("_9 w2@1 n3@4", 1, 3, Overlap(0)),
    ("_9 n3@4 w2@1", 0, 3, Overlap(1)),
    ("_9 N2@2 n3@4", 1, 3, InPlace),
    ("_9 n3@4 N2@2", 0, 3, InPlace),
    // Overflow pairs, needed and not, of the string and of others; small lengths beside them.
    ("n254", 0, 254, InPlace),
    ("n254", 0, 255, Lengths(254, 255)),
    ("n255", 0, 255, InPlace),
    ("n255", 0, 254, Lengths(255, 254)),
    ("n300 n1", 0, 300, InPlace),
    ("n300 n1", 0, 255, Lengths(300, 255)),
    ("n300 n1", 0, 44, Lengths(300, 44)),
    ("n3 n1", 0, 259, Lengths(3, 259)),
    ("n2+ n1 N3+", 2, 3, InPlace),
    ("n2+ n1 N3+", 2, 2, Lengths(3, 2)),
    ("_9 n2@3+ n1@5 n3@0+", 0, 2, InPlace),
    ("_9 n2@5+ n1@4 n3@6+", 0, 2, Overlap(2)),
    ("_9 n3@6+ n1@4 n2@5+", 2, 2, Overlap(0)),
    ("_9 n0@2+ w1@0+ n2@2", 2, 2, InPlace),
    ("n512 n254@2 w255@1 n1", 1, 254, Overlap(0)),
    ("_640 n200@440 w255@0+ n1", 0, 200, Overlap(1)),
    ("_640 n200@440 w220@0 n1", 0, 200, InPlace),
];

/// Each in one mode and in the other; and a length of more than 16 bits, which cut to them is the string's.
fn chosen() -> Vec<Call> {
    let mut calls = vec![];
    for (i, (strings, id, length, answer)) in CHOSEN.into_iter().enumerate() {
        let value = vec![b'x'; length];
        calls.extend([2 * i, 2 * i + 1].map(|i| told(i, strings, id, &value, Ok(answer))));
    }
    calls.push(told(0, "n3", 0, &[b'x'; 65_539], Ok(Lengths(3, 65_539))));
    calls
}

// ---- Refusals, and what is lent.

/// Each of 1 to 6, and an image that is whole: with an index that is too short or not, an id that there is not, a value that
/// is no UTF-8. The number that comes first is told.
fn refused() -> Vec<Call> {
    const EDITS: [(u64, &[u8]); 6] =
        [(3, b"abc"), (2, b""), (4, b"abc"), (3, b"\x80"), (4, b"\x80"), (1 << 32, b"ab")];
    let mut calls = vec![];
    for number in 0..7 {
        let (layout, mode) = turn(number as usize);
        let image = broken(layout, image(layout, "n2 N1+ w1 n3", Kinds::Longest), number);
        for (length, (id, value)) in [12, 11].into_iter().flat_map(|n| EDITS.map(|e| (n, e))) {
            let asked = Asked { layout, mode, id, value, image: &image };
            let index = garbage(length);
            let due =
                [(number != 0, number), (length < 12, 13), (id > 3, 7), (value == b"\x80", 8)];
            let first = due.into_iter().find(|(is_due, _)| *is_due).map(|(_, number)| number);
            assert_eq!(Reader(None).why(&asked, &mut index.clone()).err(), first);
            calls.push(asked.call(&index));
        }
    }
    calls
}

/// Ids about the count and far from it, with a value that is none too; no strings; no image at all.
fn absent() -> Vec<Call> {
    let mut calls = vec![];
    for (i, answer) in [InPlace, Lengths(2, 1), Wide].into_iter().enumerate() {
        calls.push(told(i, "n1 N2 w1", i as u64, b"x", Ok(answer)));
    }
    for (i, id) in [3, 4, 1 << 31, 1 << 32, (1 << 32) + 1, u64::MAX].into_iter().enumerate() {
        calls.push(told(i, "n1 N2 w1", id, b"x", Err(7)));
        calls.push(told(i, "n1 N2 w1", id, b"\xff", Err(7)));
    }
    calls.extend([0, 1].map(|id| told(0, "", id, b"", Err(7))));
    let (layout, mode) = turn(0);
    calls.push(answered(&Asked { layout, mode, id: 0, value: b"", image: &[] }, Err(1)));
    calls
}

/// Indexes by one on either side of what is asked for, with each kind of words in them; for each reason, 7 and 8.
fn lent() -> Vec<Call> {
    const EDITS: [(u64, &[u8]); 8] = [
        (6, b"xy"),
        (2, b"xy"),
        (6, "é".as_bytes()),
        (1, b"xy"),
        (4, b"xyz"),
        (0, b"xy"),
        (7, b"xy"),
        (6, b"\xff"),
    ];
    let mut calls = vec![];
    for (i, (id, value)) in EDITS.into_iter().enumerate() {
        let (layout, mode) = turn(i + 3);
        let image = image(layout, "N2 n1+ W2 w1+ n3@0 N0+ n2", KINDS[i % 3]);
        let asked = Asked { layout, mode, id, value, image: &image };
        calls.extend([0, 7, 20, 21, 22, 30].map(|length| asked.call(&garbage(length))));
        // Words by which every string is apart from every other, or all are at one place; and its own.
        let apart = (0..21).map(|i| if i < 7 { 100 * i } else { 0 }).collect();
        let heaped = (0..21).map(|i| [0, 50, 1][i / 7]).collect();
        let held: [Vec<u32>; 3] = [apart, heaped, index_of(layout, &image)];
        calls.extend(held.map(|index| asked.call(&index)));
    }
    calls
}

/// Each damage once.
fn damaged() -> Vec<Call> {
    let mut random = Random(40);
    let mut calls = vec![];
    for (i, (_, damage)) in DAMAGES.iter().enumerate() {
        let (layout, mode) = turn(i);
        let made = std::iter::repeat_with(|| make(&mut random, layout, SMALL));
        let found = made.take(100).find_map(|made| {
            let image = damage(&mut Random(i as u64), &made).filter(|image| image.len() < 1_000)?;
            Some((image, made.strings.len()))
        });
        let Some((image, count)) = found else { continue };
        let asked = Asked { layout, mode, id: i as u64 % 3, value: b"ab", image: &image };
        calls.push(asked.call(&garbage(3 * count)));
    }
    calls
}

/// 11 and 12, where the same edit is in place and where it rebuilds. `limits` has them by one on either side.
fn limits() -> Vec<Call> {
    let (layout, tail_bytes, padding, value) = (0, 4, 0, "wxyz");
    let body = |body| Some(Places { body, ..Places::default() });
    // As few bytes as 341 strings can share: an index of a call has words for no more.
    let (shared, tail, function, overlapped) = (199_500, LIMIT, body(0), true);
    let past = Near { layout, shared, tail, padding, value, function, tail_bytes, overlapped };
    let (shared, tail, function) = (99_750, PAST_FIELD - 8, body(4));
    let field = Near { layout: 1, shared, tail, function, ..past };
    let mut calls = vec![];
    for (near, mode, answer) in [
        // Each place in the result is past what a small record holds, too.
        (past, Mode::Plain, Err(11)),
        (Near { overlapped: false, ..past }, Mode::Even, Ok(InPlace)),
        (field, Mode::Plain, Ok(Overlap(339))),
        (field, Mode::Even, Err(12)),
        (Near { overlapped: false, ..field }, Mode::Even, Ok(InPlace)),
    ] {
        let (layout, image) = (Layout(near.layout), near.image());
        let asked = Asked { layout, mode, id: 0, value: value.as_bytes(), image: &image };
        calls.push(answered(&asked, answer));
    }
    calls
}
