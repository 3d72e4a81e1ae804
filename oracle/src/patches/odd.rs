//! Images whose wide strings stand, or come to stand, at odd places, and the fixed calls of the even mode.

use super::even;
use super::small::{Bare, Places};
use super::{texts, Kind, Patch};
use crate::image::layout::Layout;
use crate::image::reading::Reading;
use crate::job::packing::{Mode, MODES};
use crate::stream::Call;

/// The longest image.
const LIMIT: usize = 67_108_864;
/// The first offset that a small record does not hold.
pub const PAST_FIELD: usize = 33_554_432;
/// The length of a string that many share.
pub const SHARED: usize = 28_000;

/// An image of strings, one behind the other: n or w, in capitals an identifier, and the count. It has a small and a
/// large record, info places and a debug offset.
pub fn packed(layout: u8, strings: &str) -> Bare {
    let mut image = Bare { layout, tail: 28, debug: Some(8), ..Bare::default() };
    for word in strings.split(' ') {
        let (kind, count) = word.split_at(1);
        let (wide, count) = (kind.eq_ignore_ascii_case("w"), count.parse().unwrap());
        let is_identifier = kind.as_bytes()[0].is_ascii_uppercase();
        image.strings.push((wide, is_identifier, image.storage.len(), count));
        // No byte is 0, and no two strings are alike.
        let low = b'A' + image.strings.len() as u8;
        let unit = [low, 0x41];
        let bytes = (0..count).flat_map(|_| &unit[..if wide { 2 } else { 1 }]);
        image.storage.extend(bytes);
    }
    let small = Places { size: 4, info: Some(4), ..Places::default() };
    let large = Places { header: Some(8), body: 4, size: 4, info: Some(6) };
    image.functions = vec![small, large];
    image
}

/// A patch by id in even mode, with any room.
fn patch<'a>(image: &'a [u8], layout: u8, id: u32, value: &'a str) -> Patch<'a> {
    let (mode, layout, new, room) = (Mode::Even, Layout(layout), value.as_bytes(), usize::MAX);
    Patch { kind: Kind::ById, mode, layout, id, old: &[], new, image, room }
}

/// Its call, with so much more or less room than the result takes.
fn call(patch: Patch, more: isize) -> Call {
    let room = even::read(&patch, None).unwrap().len().wrapping_add_signed(more);
    patch.call(vec![0x5c; room]).unwrap()
}

pub fn fixed() -> Vec<Call> {
    let mut calls = triples();
    calls.extend(chosen());
    calls.extend(again());
    calls.extend(rooms());
    calls.extend(limits());
    calls
}

/// Every three strings of few bytes, narrow and wide, behind one that comes to have three bytes.
fn triples() -> Vec<Call> {
    const KINDS: [&str; 5] = ["n0", "n1", "n2", "w0", "w1"];
    let triple = |i: usize| {
        let [a, b, c] = [i / 25, i / 5 % 5, i % 5].map(|kind| KINDS[kind]);
        let layout = i as u8 % 5;
        let image = packed(layout, &format!("n1 {a} {b} {c}")).image();
        call(patch(&image, layout, 0, "abc"), 0)
    };
    (0..125).map(triple).collect()
}

/// What three short strings do not show.
fn chosen() -> Vec<Call> {
    let long = |count: usize| "é".repeat(count);
    let cases = [
        // The new value is the wide string: at an odd place, at an even one, the last.
        ("n1 n1 n2", 1, "é".into()),
        ("n2 n1 n2", 1, "é".into()),
        ("n3 w0 n0", 2, "éé".into()),
        ("n1 w2 w0", 1, "é".into()),
        // It was wide and is no more, so that those behind it are due at odd places.
        ("w1 w1 w0", 0, "a".into()),
        ("n1 w1 w1 n1 w1", 1, "a".into()),
        ("w1 w0", 0, "abc".into()),
        ("w2 w1", 0, String::new()),
        // Each needs a gap, and one gap serves many.
        ("n2 w1 n1 w1 n1 w0 n3 w2 n5 w1", 0, "a".into()),
        ("n2 w1 w2 w0 w0 w3 n1", 0, "a".into()),
        // Overflow entries by their length, wide ones of the longest small length beside them.
        ("n2 w254 n1 w255 n1 w256", 0, "a".into()),
        ("n2 n255 w1 w255", 0, "abc".into()),
        ("n2 w255 n254 w254", 0, "a".into()),
        ("n1 n1 w1", 1, long(254)),
        ("n1 n1 w1", 1, long(255)),
        ("n2 n1 w255", 1, long(255)),
        ("n255 n1 W255", 1, "abc".into()),
        // Identifiers.
        ("N1 W1 n1 W2", 1, "ö".into()),
        ("N2 W1 N1 W0", 2, "abc".into()),
        ("n1 W0 W1", 0, String::new()),
        // In place, with wide strings at odd places behind it and before it.
        ("n1 w1", 0, "z".into()),
        ("n1 w1 n2 w0", 2, "zz".into()),
        ("n3 W1 N3 w1", 2, "xyz".into()),
        ("n1 w255 n254", 2, "z".repeat(254)),
        ("n1 w1 n0", 2, String::new()),
    ];
    let layouts = (0..5).cycle();
    let mut calls: Vec<Call> = cases
        .iter()
        .zip(layouts)
        .map(|((strings, id, value), layout)| {
            call(patch(&packed(layout, strings).image(), layout, *id, value), 0)
        })
        .collect();
    // A wide string within a narrow one is taken apart from it.
    let mut shared = packed(1, "n3 n1");
    shared.strings.push((true, false, 1, 1));
    calls.push(call(patch(&shared.image(), 1, 0, "xyz"), 0));
    // By its value, and refused by it.
    for (layout, old, new) in [(2, "B", "abc"), (3, "䅃", "ö"), (4, "é", "abc"), (0, "䅃", "")]
    {
        let image = packed(layout, "n1 w1 n1 w1").image();
        let patch = patch(&image, layout, 0, new);
        let patch = Patch { kind: Kind::ByValue, old: old.as_bytes(), ..patch };
        calls.push(patch.call(vec![0x5c; image.len() + 8]).unwrap());
    }
    calls
}

/// An image that the even mode packed, patched in either mode, and in place.
fn again() -> Vec<Call> {
    let first = packed(3, "n2 w1 n1 w0 n2 W1").image();
    let image = even::read(&patch(&first, 3, 0, "a"), None).unwrap();
    let mut calls = vec![];
    for mode in MODES {
        for (id, value) in [(0, "abc"), (0, "b"), (2, ""), (3, ""), (5, "é")] {
            calls.push(call(Patch { mode, ..patch(&image, 3, id, value) }, 0));
        }
    }
    calls
}

/// Room for the result, a byte more, one less, and as much as the plain mode takes: where the gap makes the image
/// longer, where the padding takes it up, and in place.
fn rooms() -> Vec<Call> {
    let mut calls = vec![];
    for (strings, value) in [("n2 w1 n3", "abc"), ("n2 w1 n1", "abc"), ("n1 w1", "z")] {
        let image = packed(0, strings).image();
        let patch = patch(&image, 0, 0, value);
        let plain = even::read(&Patch { mode: Mode::Plain, ..patch }, None).unwrap();
        calls.extend([-1, 0, 1].map(|more| call(patch, more)));
        calls.push(patch.call(vec![0x5c; plain.len()]).unwrap());
    }
    calls
}

/// 11 and 12 by the gap alone: it makes the result a byte longer than an image can be, and a body's offset one more than
/// a small record holds. In plain mode both give 13. `limits` has the other side.
fn limits() -> Vec<Call> {
    let body = Places { body: 4, ..Places::default() };
    let images =
        [(0, grown(0, LIMIT - 24, 0, None, 1)), (1, grown(1, PAST_FIELD - 8, 0, Some(body), 4))];
    let call = |(layout, image): &(u8, Vec<u8>)| patch(image, *layout, 0, "").call(vec![0x5c; 4]);
    images.iter().filter_map(call).collect()
}

/// An image whose strings share storage. Where string 0 is emptied, the narrow ones behind it come to take so many bytes,
/// and then come the last ones: wide or not, and the count.
pub fn due(layout: u8, bytes: usize, last: &[(bool, usize)]) -> Bare {
    let narrow = std::iter::repeat_n(SHARED, 1 + bytes / SHARED).chain([bytes % SHARED]);
    let strings = narrow.map(|count| (false, count)).chain(last.iter().copied());
    let strings = strings.map(|(wide, count)| (wide, false, 0, count)).collect();
    Bare { layout, strings, storage: vec![b'a'; SHARED], ..Bare::default() }
}

/// An image whose tail comes to start at a place, behind so many bytes of padding, where string 0 is emptied in plain
/// mode. With 0 or 2 of them a wide string is at an odd place. The tail has so many bytes, and may have a function.
pub fn grown(
    layout: u8,
    tail: usize,
    padding: usize,
    function: Option<Places>,
    tail_bytes: usize,
) -> Vec<u8> {
    let image = |bytes: usize| {
        let functions = function.into_iter().collect();
        let strings = due(layout, bytes, &[(true, 1), (false, 1)]);
        Bare { functions, tail: tail_bytes, ..strings }.image()
    };
    ending_at(layout, tail, padding, "", image)
}

/// The image of as many bytes, less the padding, as leave the tail at a place or before it, where string 0 gets a value by a
/// rebuild in plain mode.
pub fn ending_at(
    layout: u8,
    tail: usize,
    padding: usize,
    value: &str,
    image: impl Fn(usize) -> Vec<u8>,
) -> Vec<u8> {
    let is_before = |bytes: usize| {
        let reading = Reading { layout: Layout(layout), image: &image(bytes), slip: None };
        texts::rebuilt_tail(&reading, &reading.strings(), 0, value) as usize <= tail
    };
    let (mut least, mut most) = (0, tail);
    while least + 1 < most {
        let middle = (least + most) / 2;
        *if is_before(middle) { &mut least } else { &mut most } = middle;
    }
    image(least - padding)
}
