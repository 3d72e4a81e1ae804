//! Patches at random, and the fixed calls.

use super::judgement::judge;
use super::{lists, odd, orders, small, texts, Kind, Patch};
use crate::image::damage::DAMAGES;
use crate::image::layout::{set_word, Layout, LAYOUTS};
use crate::image::maker::{make, put_function, Made, Shape, LARGE, MIDDLE, ODD, SMALL};
use crate::image::reading::{Reading, Stored};
use crate::job::packing::{Mode, MODES};
use crate::random::Random;
use crate::stream::Call;

/// The values that a string is patched to, in turn.
#[derive(Clone, Copy, PartialEq)]
pub enum Value {
    EqualAscii,
    OtherAscii,
    EqualAccented,
    BeyondPlane,
    Empty,
    AtTheLimit,
    NotUtf8,
    Mixed,
    Same,
    Another,
}

pub const VALUES: [Value; 10] = [
    Value::EqualAscii,
    Value::OtherAscii,
    Value::EqualAccented,
    Value::BeyondPlane,
    Value::Empty,
    Value::AtTheLimit,
    Value::NotUtf8,
    Value::Mixed,
    Value::Same,
    Value::Another,
];

/// Each is refused for another row of the table of well-formed byte sequences.
pub const NO_UTF8: [&[u8]; 10] = [
    b"\x80",
    b"a\xc3",
    b"\xc0\x80",
    b"\xc3\x29",
    b"\xe0\x9f\xbf",
    b"\xed\xa0\x80",
    b"\xef\xbf",
    b"\xf0\x8f\xbf\xbf",
    b"\xf4\x90\x80\x80",
    b"\xff",
];

fn ascii(random: &mut Random, count: usize) -> String {
    (0..count).map(|_| (random.next() as u8 & 0x7f) as char).collect()
}

fn chars(random: &mut Random, count: usize, from: &[char]) -> String {
    (0..count).map(|_| random.pick(from)).collect()
}

/// Characters of two bytes, and one of one where the length is odd.
fn accented(random: &mut Random, length: usize) -> String {
    let pairs = if length < 2 { 1 } else { random.within(1..length / 2 + 1) };
    let mut text = chars(random, pairs, &['\u{80}', 'é', 'ü', '\u{7ff}']);
    text += &ascii(random, length.saturating_sub(2 * pairs));
    text
}

pub fn text(reading: &Reading, string: &Stored) -> String {
    String::from_utf16_lossy(&texts::units(reading, string))
}

pub fn value(random: &mut Random, reading: &Reading, own: &Stored, value: Value) -> Vec<u8> {
    let size = (own.end - own.start) as usize;
    let text = match value {
        Value::EqualAscii => ascii(random, size),
        Value::OtherAscii => {
            let length = random.within(0..size + 12);
            ascii(random, length)
        }
        Value::EqualAccented => accented(random, size),
        Value::BeyondPlane => {
            let count = random.within(1..4);
            chars(random, count, &['\u{10000}', '\u{10ffff}', '😀', 'a'])
        }
        Value::Empty => String::new(),
        Value::AtTheLimit => {
            let units = random.within(254..257);
            let last = random.pick(&["a", "é", "€", "\u{ffff}"]);
            ascii(random, units - 1) + last
        }
        Value::NotUtf8 => return random.pick(&NO_UTF8).to_vec(),
        Value::Mixed => {
            let count = random.within(0..size + 3);
            chars(
                random,
                count,
                &['a', '\0', '\u{7f}', 'é', '\u{800}', '\u{d7ff}', '\u{e000}', '€', '😀'],
            )
        }
        Value::Same => text(reading, own),
        Value::Another => text(reading, &random.pick(&reading.strings())),
    };
    text.into_bytes()
}

/// The call of a patch, with as much room as it needs, or more, or at times one byte less.
pub(super) fn roomed(random: &mut Random, patch: Patch) -> Option<Call> {
    let answer = judge(&Patch { room: usize::MAX, ..patch }).answer;
    let room = match answer {
        Ok(image) => match random.below(16) {
            0 => image.len() - 1,
            1 => random.within(0..image.len()),
            2..7 => image.len() + random.within(1..24),
            _ => image.len(),
        },
        Err(_) => random.within(0..48),
    };
    let out = random.bytes(room);
    patch.call(out)
}

/// A patch of a string, by its id or by its value.
fn string_call(
    random: &mut Random,
    (kind, mode): (Kind, Mode),
    layout: Layout,
    image: &[u8],
    of: Value,
) -> Option<Call> {
    let reading = Reading { layout, image, slip: None };
    let strings = if reading.refusal() == 0 { reading.strings() } else { vec![] };
    let none = Stored { wide: false, start: 0, end: 0 };
    // Of no strings there is little to patch, and nothing to patch them to.
    if strings.is_empty() && (matches!(of, Value::Same | Value::Another) || !random.one_in(6)) {
        return None;
    }
    let chosen = if strings.is_empty() { 0 } else { random.within(0..strings.len()) };
    let own = strings.get(chosen).unwrap_or(&none);
    let new = value(random, &reading, own, of);
    let id = chosen as u32;
    let mut patch = Patch { kind, mode, layout, id, old: &[], new: &new, image, room: 0 };
    if random.one_in(24) {
        patch.id = random.pick(&[strings.len() as u32, strings.len() as u32 + 1, u32::MAX]);
    }
    if kind == Kind::ById {
        return roomed(random, patch);
    }
    let old = match random.below(12) {
        0 => random.pick(&NO_UTF8).to_vec(),
        1 => ascii(random, 2).into_bytes(),
        2 => vec![],
        3 if !strings.is_empty() => (text(&reading, own) + "x").into_bytes(),
        _ if strings.is_empty() => vec![],
        _ => text(&reading, own).into_bytes(),
    };
    roomed(random, Patch { old: &old, ..patch })
}

/// The lengths of a new body.
#[derive(Clone, Copy)]
enum Length {
    Equal,
    Zero,
    Shorter,
    Longer,
    AtTheField,
}

const LENGTHS: [Length; 5] =
    [Length::Equal, Length::Zero, Length::Shorter, Length::Longer, Length::AtTheField];

fn body_call(random: &mut Random, mut made: Made, length: Length) -> Option<Call> {
    let count = made.functions.len();
    if count == 0 && !random.one_in(6) {
        return None;
    }
    let mut id = if count == 0 { 0 } else { random.within(0..count) };
    if count > 0 && !random.one_in(6) {
        cleared(random, &mut made, id);
    }
    let old = made.functions.get(id).map_or(0, |function| function.size);
    let size = match length {
        Length::Equal => old,
        Length::Zero => 0,
        Length::Shorter => random.within(0..old + 1),
        Length::Longer => old + random.within(1..20),
        Length::AtTheField => random.pick(&[16_383, 16_384, 32_767, 32_768]),
    };
    let body = random.bytes(size);
    if random.one_in(24) {
        id = random.pick(&[count, count + 1, u32::MAX as usize]);
    }
    let (layout, image) = (made.layout, &made.image);
    let (kind, mode, id) = (Kind::Body, Mode::Plain, id as u32);
    roomed(random, Patch { kind, mode, layout, id, old: &[], new: &body, image, room: 0 })
}

/// Most info places and the debug offset out of the body's way, but near its edges.
fn cleared(random: &mut Random, made: &mut Made, id: usize) {
    let (begin, end) = (made.functions[id].body, made.functions[id].body + made.functions[id].size);
    let (tail, footer) = (made.tail, made.footer());
    let edges = |random: &mut Random, allowed: &dyn Fn(usize) -> bool| {
        let near = [0, begin.saturating_sub(1), begin, end.saturating_sub(1), end, end + 1, footer];
        let place = random.pick(&near);
        let lies = place == 0 || (tail <= place && place <= footer);
        if lies && (allowed(place) || random.one_in(20)) {
            place
        } else {
            0
        }
    };
    for other in 0..made.functions.len() {
        let mut function = made.functions[other];
        if made.layout.info().is_some() && (!random.one_in(3) || function.info >= begin) {
            function.info = edges(random, &|place| place < begin || place >= end);
            made.functions[other] = function;
            put_function(random, made.layout, &mut made.image, other, &function);
        }
    }
    let debug = edges(random, &|place| place >= end);
    set_word(&mut made.image, made.layout.debug(), debug as u32);
}

fn string_kind(random: &mut Random) -> Kind {
    if random.one_in(3) {
        Kind::ByValue
    } else {
        Kind::ById
    }
}

fn mode(random: &mut Random) -> Mode {
    random.pick(&MODES)
}

/// The image, patched once before or damaged, or as it was made.
pub fn prepared(random: &mut Random, made: Made) -> Option<(Layout, Vec<u8>)> {
    let layout = made.layout;
    if random.one_in(16) {
        let damage = random.pick(&DAMAGES).1;
        return Some((layout, damage(random, &made)?));
    }
    if random.one_in(4) {
        let (mode, of) = (mode(random), random.pick(&VALUES));
        let call = string_call(random, (Kind::ById, mode), layout, &made.image, of)?;
        let answer = call.answer();
        let at = answer.buffer.len() - super::patch(&call).room;
        let length = answer.results[0] as usize;
        if answer.status == 0 {
            return Some((layout, answer.buffer[at..at + length].to_vec()));
        }
    }
    Some((layout, made.image))
}

fn drawn(random: &mut Random, layout: Layout, shape: Shape) -> Option<Call> {
    let made = make(random, layout, shape);
    if random.below(5) < 2 {
        let length =
            if random.one_in(25) { Length::AtTheField } else { random.pick(&LENGTHS[..4]) };
        return body_call(random, made, length);
    }
    let (layout, image) = prepared(random, made)?;
    if random.one_in(3) {
        let mode = mode(random);
        return lists::drawn(random, mode, layout, &image);
    }
    let kind = (string_kind(random), mode(random));
    let of = random.pick(&VALUES);
    string_call(random, kind, layout, &image, of)
}

pub fn random(random: &mut Random) -> Call {
    loop {
        let layout = random.pick(&LAYOUTS);
        let shape = match random.below(400) {
            0 => LARGE,
            1..25 => MIDDLE,
            25..275 => ODD,
            _ => SMALL,
        };
        if let Some(call) = drawn(random, layout, shape) {
            return call;
        }
    }
}

/// The departures' inputs, then each layout with each kind of value and each length of a body; then the even mode; then the
/// pass; then two patches in either order.
pub fn fixed() -> Vec<Call> {
    let mut random = Random(32);
    let mut calls: Vec<Call> =
        small::shown().into_iter().filter_map(|shown| shown.call()).collect();
    for layout in LAYOUTS {
        calls.extend(fixed_strings(&mut random, Mode::Plain, layout, SMALL, 3));
        for length in LENGTHS {
            let most = if matches!(length, Length::AtTheField) { 1 } else { 6 };
            let tries = std::iter::repeat_with(|| {
                let made = make(&mut random, layout, SMALL);
                body_call(&mut random, made, length)
            });
            calls.extend(tries.take(100).flatten().take(most));
        }
    }
    calls.extend(odd::fixed());
    for layout in LAYOUTS {
        calls.extend(fixed_strings(&mut random, Mode::Even, layout, ODD, 1));
    }
    calls.extend(lists::fixed());
    calls.extend(orders::fixed());
    calls
}

/// Some patches of strings of a layout, by id and by value, for each kind of value.
fn fixed_strings(
    random: &mut Random,
    mode: Mode,
    layout: Layout,
    shape: Shape,
    most: usize,
) -> Vec<Call> {
    let mut calls = vec![];
    for (kind, of) in VALUES.iter().flat_map(|of| [(Kind::ById, *of), (Kind::ByValue, *of)]) {
        let tries = std::iter::repeat_with(|| {
            let image = make(random, layout, shape).image;
            string_call(random, (kind, mode), layout, &image, of)
        });
        calls.extend(tries.take(100).flatten().take(most));
    }
    calls
}
