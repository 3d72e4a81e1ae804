//! Lists of edits for the pass of document 02, No. 4: the fixed calls, and lists at random.

use super::draw::{roomed, value, Value, NO_UTF8, VALUES};
use super::odd::packed;
use super::small::{Bare, Places};
use super::{pass, texts, Kind, Patch};
use crate::image::layout::{Layout, LAYOUTS};
use crate::image::maker::{make, SMALL};
use crate::image::reading::{Reading, Stored};
use crate::job::packing::{Mode, MODES};
use crate::random::Random;
use crate::stream::Call;

/// A list as a call carries it.
#[derive(Clone, Default)]
pub struct List {
    pub ids: Vec<u32>,
    pub text: Vec<u8>,
    ends: Vec<u32>,
}

impl List {
    pub fn of<V: AsRef<[u8]>>(edits: &[(u32, V)]) -> List {
        let mut list = List::default();
        for (id, value) in edits {
            list.text.extend(value.as_ref());
            list.ids.push(*id);
            list.ends.push(list.text.len() as u32);
        }
        list
    }

    pub fn words(&self) -> Vec<u8> {
        self.ids.iter().chain(&self.ends).flat_map(|word| word.to_le_bytes()).collect()
    }

    /// The call with room for its result, and so much more or less; as much as the image takes where it is refused.
    fn call(&self, mode: Mode, layout: u8, image: &[u8], more: isize) -> Call {
        let words = self.words();
        let patch = self.patch(&words, mode, Layout(layout), image);
        let length = pass::read(&patch, None, None).map_or(image.len(), |new| new.len());
        self.call_in(mode, layout, image, length.wrapping_add_signed(more))
    }

    fn call_in(&self, mode: Mode, layout: u8, image: &[u8], room: usize) -> Call {
        let words = self.words();
        self.patch(&words, mode, Layout(layout), image).call(vec![0x5c; room]).unwrap()
    }

    fn patch<'a>(
        &'a self,
        old: &'a [u8],
        mode: Mode,
        layout: Layout,
        image: &'a [u8],
    ) -> Patch<'a> {
        let (kind, id, room) = (Kind::Pass, self.ids.len() as u32, usize::MAX);
        Patch { kind, mode, layout, id, old, new: &self.text, image, room }
    }
}

// ---- At random.

/// A list of edits of an image: most are lists of different ids.
pub fn drawn(random: &mut Random, mode: Mode, layout: Layout, image: &[u8]) -> Option<Call> {
    let reading = Reading { layout, image, slip: None };
    let strings = if reading.refusal() == 0 { reading.strings() } else { vec![] };
    if strings.is_empty() && !random.one_in(6) {
        return None;
    }
    let mut list = List::of(&edits(random, &reading, &strings));
    if random.one_in(6) {
        list.text.extend(random.pick(&NO_UTF8));
    }
    spoiled(random, &mut list, strings.len());
    let words = list.words();
    roomed(random, list.patch(&words, mode, layout, image))
}

/// What becomes of the edits of a list.
#[derive(Clone, Copy, PartialEq)]
enum Way {
    /// Values of all kinds.
    Any,
    /// All are in place.
    InPlace,
    /// All are but one.
    AllButOne,
    /// All would be, but for overlaps.
    Sized,
}

/// The ids of some strings, in any order, and a way for them.
fn ids(random: &mut Random, strings: &[Stored]) -> (Way, Vec<usize>) {
    let mut way = random.pick(&[Way::Any, Way::InPlace, Way::AllButOne, Way::Sized]);
    let all: Vec<usize> = (0..strings.len()).collect();
    let mut ids = all.clone();
    ids.retain(|id| {
        let same = "x".repeat((strings[*id].end - strings[*id].start) as usize);
        match way {
            Way::Any => true,
            Way::Sized => !strings[*id].wide,
            _ => texts::fits_in_place(strings, *id, &same),
        }
    });
    if ids.is_empty() {
        (way, ids) = (Way::Any, all);
    }
    for i in (1..ids.len()).rev() {
        ids.swap(i, random.within(0..i + 1));
    }
    ids.truncate(random.pick(&[0, 1, 2, 2, 3, 3, 4, 5, 6, 8, 24]));
    (way, ids)
}

/// Some strings in any order, and a value for each.
fn edits(random: &mut Random, reading: &Reading, strings: &[Stored]) -> Vec<(u32, Vec<u8>)> {
    let (way, ids) = ids(random, strings);
    let odd_one = random.within(0..ids.len().max(1));
    let mut edits = vec![];
    for (i, id) in ids.iter().enumerate() {
        let of = match (way, random.pick(&VALUES)) {
            (Way::Any, Value::NotUtf8) if !random.one_in(4) => Value::Empty,
            (Way::Any, of) => of,
            (Way::AllButOne, of) if i == odd_one => of,
            _ => Value::EqualAscii,
        };
        edits.push((*id as u32, value(random, reading, &strings[*id], of)));
    }
    edits
}

/// At times an id that there is not, one given twice, or no list at all.
fn spoiled(random: &mut Random, list: &mut List, strings: usize) {
    if list.ids.is_empty() {
        return;
    }
    let (one, other) = (random.within(0..list.ids.len()), random.within(0..list.ids.len()));
    if random.one_in(24) {
        list.ids[one] = random.pick(&[strings as u32, strings as u32 + 1, u32::MAX]);
    }
    if random.one_in(16) {
        list.ids[one] = list.ids[other];
    }
    match random.below(120) {
        0 => list.ends.truncate(one),
        1 => list.ids.truncate(one),
        2 => list.ends.swap(one, other),
        3 => list.ends[one] = list.text.len() as u32 + 1,
        4 => list.ends.push(list.text.len() as u32),
        _ => {}
    }
}

// ---- Fixed.

pub fn fixed() -> Vec<Call> {
    let mut calls = chosen();
    calls.extend(orders());
    calls.extend(shared());
    calls.extend(many());
    calls.extend(rooms());
    calls.extend(refused());
    calls.extend(no_lists());
    calls.extend(huge());
    calls.extend(LAYOUTS.into_iter().flat_map(layouts));
    calls
}

/// Lists of a few edits of strings that stand one behind the other, in both modes, with values that are in place, narrow,
/// wide, empty, and long.
fn chosen() -> Vec<Call> {
    let long = |of: &str, count: usize| of.repeat(count);
    let cases: [(&str, Vec<(u32, String)>); 22] = [
        ("n1 w1 N2", vec![]),
        ("n0", vec![]),
        // All in place: one, some, all; identifiers among them; empty ones.
        ("n3 w1 N3", vec![(0, "abc".into())]),
        ("n3 w1 N3 n2", vec![(0, "abc".into()), (2, "xyz".into())]),
        ("N3 n1 N2 N1", vec![(3, "z".into()), (0, "abc".into()), (2, "pq".into())]),
        ("n2 n0 N0 n1", vec![(1, "".into()), (2, "".into()), (3, "z".into())]),
        ("n1 w1 n2", vec![(0, "y".into()), (2, "zz".into())]),
        ("n254 N255 n1", vec![(0, long("a", 254)), (1, long("b", 255))]),
        // One is not: by its length, its letters, its width; the first, the middle one, the last.
        ("n3 N3 n3", vec![(0, "abcd".into()), (1, "xyz".into()), (2, "pqr".into())]),
        ("n3 N3 n3", vec![(0, "abc".into()), (1, "".into()), (2, "pqr".into())]),
        ("n3 N3 n3", vec![(0, "abc".into()), (1, "xyz".into()), (2, "pé".into())]),
        ("n2 w1 N2", vec![(0, "ab".into()), (1, "cd".into()), (2, "ef".into())]),
        ("N2 W1 n2 N1", vec![(3, "é".into()), (1, "ab".into()), (0, "xy".into())]),
        // None is.
        ("n1 n1 n1 w1", vec![(0, "é".into()), (1, "ab".into()), (3, "".into())]),
        ("w1 w1 w0 n1", vec![(0, "a".into()), (1, "".into()), (2, "é".into()), (3, "é".into())]),
        ("N1 N1 n1 N1", vec![(0, "ab".into()), (1, "é".into()), (3, "".into())]),
        ("n3 w2 n1", vec![(0, "".into()), (1, "".into()), (2, "".into())]),
        ("n1 w1 n1 w1 n1 w1", vec![(0, "ab".into()), (2, "".into()), (4, "abc".into())]),
        // Overflow entries come and go.
        ("n255 w255 n2", vec![(0, "a".into()), (1, "é".into())]),
        ("n255 w255 n2", vec![(2, long("é", 255)), (0, long("a", 254))]),
        ("n2 W1 n1 w254", vec![(0, long("a", 255)), (1, long("ö", 254)), (3, long("b", 256))]),
        ("n1 n255 N1 w255", vec![(2, long("a", 300)), (0, long("€", 300))]),
    ];
    let mut calls = vec![];
    for (i, (strings, edits)) in cases.iter().enumerate() {
        for mode in MODES {
            let layout = (i % 5) as u8;
            let image = packed(layout, strings).image();
            calls.push(List::of(edits).call(mode, layout, &image, 0));
        }
    }
    calls
}

/// Three edits in every order: in place, and by a rebuild.
fn orders() -> Vec<Call> {
    const ORDERS: [[usize; 3]; 6] =
        [[0, 1, 2], [0, 2, 1], [1, 0, 2], [1, 2, 0], [2, 0, 1], [2, 1, 0]];
    let in_place = [(0, "ab"), (2, "cd"), (3, "efg")];
    let rebuilt = [(0, "abc"), (1, ""), (3, "é")];
    let mut calls = vec![];
    for order in ORDERS {
        for (mode, edits) in [(MODES[0], in_place), (MODES[0], rebuilt), (MODES[1], rebuilt)] {
            let image = packed(2, "N2 w1 N2 n3").image();
            calls.push(List::of(&order.map(|i| edits[i])).call(mode, 2, &image, 0));
        }
    }
    calls
}

/// Strings that share storage: with one that is edited too, with one that is not, and none edited at all.
fn shared() -> Vec<Call> {
    let mut image = packed(1, "n4 n2 N3");
    image.strings.push((false, false, 2, 3));
    image.strings.push((true, true, 7, 1));
    image.strings.push((false, false, 1, 0));
    let image = image.image();
    let lists: [&[(u32, &str)]; 9] = [
        &[],
        // All that share with one another, and not all of them.
        &[(0, "abcd"), (1, "xy"), (3, "pqr"), (5, "")],
        &[(0, "abcd"), (3, "xyz")],
        &[(0, "abcd"), (1, "xy"), (3, "pqr")],
        &[(1, "xy"), (0, "abcd")],
        &[(2, "xyz")],
        &[(2, "xyz"), (4, "é")],
        &[(5, "")],
        &[(5, ""), (0, "abcd")],
    ];
    let call = |list: &&[(u32, &str)], mode| List::of(list).call(mode, 1, &image, 0);
    lists.iter().flat_map(|list| MODES.map(|mode| call(list, mode))).collect()
}

/// Hundreds of strings, of which every second one or all are edited, from the last to the first.
fn many() -> Vec<Call> {
    let kinds = ["n2", "N3", "w1", "n0", "W2"];
    let words: Vec<&str> = (0..180).map(|i| kinds[i % 5]).collect();
    let image = packed(4, &words.join(" ")).image();
    let values = ["ab", "", "é", "xyz", "€€", "n"];
    let edits = |by: usize| -> Vec<(u32, &str)> {
        (0..180).rev().step_by(by).map(|id| (id as u32, values[id % 6])).collect()
    };
    let in_place = |kinds: &[(usize, &'static str)]| -> Vec<(u32, &str)> {
        let value = |id: &usize| kinds.iter().find(|kind| kind.0 == id % 5).map(|kind| kind.1);
        (0..180).rev().filter_map(|id| Some((id as u32, value(&id)?))).collect()
    };
    let lists = [edits(1), edits(2), edits(7), in_place(&[(0, "ab"), (1, "cde"), (3, "")])];
    lists
        .iter()
        .flat_map(|list| MODES.map(|mode| List::of(list).call(mode, 4, &image, 0)))
        .collect()
}

/// Room for the result, a byte more, and one less; and where the single steps take more than the end.
fn rooms() -> Vec<Call> {
    let lists: [&[(u32, &str)]; 5] = [
        &[],
        &[(0, "abc"), (2, "x")],
        &[(0, "abcdefgh"), (1, "é")],
        // 13 halfway, in one order and in the other.
        &[(0, "abcdefghijkl"), (2, "")],
        &[(2, ""), (0, "abcdefghijkl")],
    ];
    let image = packed(3, "n3 w1 n1 n9").image();
    let mut calls = vec![];
    for (list, mode) in lists.iter().flat_map(|list| MODES.map(|mode| (list, mode))) {
        calls.extend([-1, 0, 1].map(|more| List::of(list).call(mode, 3, &image, more)));
    }
    // Longer by 16 bytes halfway, and shorter in the end.
    let list = List::of(&[(0, "abcdefghijklmnopqrs"), (3, ""), (1, "")]);
    calls.extend(MODES.map(|mode| list.call(mode, 3, &image, 0)));
    calls.push(List::of(&[(3, ""), (0, "abcdefghijk"), (1, "ab")]).call(MODES[0], 3, &image, 0));
    calls
}

/// Each number, and each before those behind it: 7, 17, 8, 13.
fn refused() -> Vec<Call> {
    let (bad, fine) = (&b"\xc3"[..], &b"a"[..]);
    let lists: [&[(u32, &[u8])]; 18] = [
        &[(3, fine)],
        &[(0, fine), (u32::MAX, fine)],
        &[(3, fine), (0, fine)],
        &[(0, fine), (3, fine), (1, fine)],
        &[(0, fine), (0, fine)],
        &[(0, fine), (0, b"b")],
        &[(0, fine), (1, fine), (0, fine)],
        &[(2, fine), (0, fine), (1, b"xy"), (2, b"z")],
        &[(0, bad)],
        &[(0, bad), (1, fine)],
        &[(0, fine), (1, bad)],
        &[(0, fine), (1, bad), (2, fine)],
        // Two numbers and three.
        &[(0, fine), (0, fine), (3, fine)],
        &[(3, fine), (3, fine)],
        &[(0, bad), (3, fine)],
        &[(0, bad), (0, bad)],
        &[(1, bad), (0, fine), (0, fine)],
        &[(0, bad), (0, fine), (3, bad)],
    ];
    let image = packed(0, "n1 w1 N1").image();
    let mut calls = vec![];
    for (i, list) in lists.iter().enumerate() {
        let list = List::of(list);
        calls.push(list.call(MODES[i % 2], 0, &image, 8));
        calls.push(list.call_in(MODES[i % 2], 0, &image, 0));
    }
    // A character that an end cuts, though the text is UTF-8; and bytes behind the last end.
    let cut = List { ids: vec![0, 1], text: "aé".into(), ends: vec![2, 3] };
    let rest = List { ids: vec![0, 1], text: b"ab\xff".to_vec(), ends: vec![1, 2] };
    let nothing = List { ids: vec![], text: b"\xff".to_vec(), ends: vec![] };
    calls.extend([cut, rest, nothing].map(|list| list.call(MODES[0], 0, &image, 0)));
    calls
}

/// 15, before all others; and 1 to 6 before 7 and what is behind it.
fn no_lists() -> Vec<Call> {
    let whole = packed(1, "n2 N1").image();
    let mut damaged = whole.clone();
    damaged[0] ^= 1;
    let text = b"abc".to_vec();
    let list = |ids: &[u32], ends: &[u32]| List {
        ids: ids.to_vec(),
        text: text.clone(),
        ends: ends.to_vec(),
    };
    let none = [
        list(&[0], &[]),
        list(&[], &[0]),
        list(&[0, 1], &[1]),
        list(&[0], &[1, 2]),
        list(&[0, 1], &[2, 1]),
        list(&[0, 1], &[4, 3]),
        list(&[0], &[4]),
        list(&[0, 1], &[3, 4]),
        list(&[0], &[u32::MAX]),
        list(&[9, 9], &[2, 1]),
        list(&[9], &[]),
    ];
    let lists = [list(&[0], &[3]), list(&[], &[]), list(&[9], &[1]), list(&[0, 0], &[0, 1])];
    let mut calls = vec![];
    for list in none.iter().chain(&lists) {
        calls.push(list.call(MODES[0], 1, &whole, 8));
        calls.push(list.call(MODES[1], 1, &damaged, 0));
    }
    calls.push(List::of(&[(0, b"\xff"), (0, b"a")]).call(MODES[0], 1, &damaged, 0));
    calls.push(list(&[0], &[5]).call_in(MODES[0], 1, &whole, 0));
    calls
}

/// 11 and 12, where strings share storage and a rebuild takes them apart: of the end image, with 8 before them; and met by
/// the single steps alone, which the list brings back.
fn huge() -> Vec<Call> {
    let body = Places { size: 4, ..Places::default() };
    let image = |strings: usize, size: usize| {
        let entry = |i: usize| (false, i == 1, 0, size);
        let (strings, storage) = ((0..strings).map(entry).collect(), vec![b'a'; size]);
        Bare { layout: 1, strings, storage, functions: vec![body], tail: 4, ..Bare::default() }
            .image()
    };
    let (limit, field) = (image(2_000, 33_600), image(1_300, 26_000));
    let few = |first: &'static [u8]| List::of(&[(7, first), (1, b"xy"), (0, b"")]);
    // All strings but one.
    let all = |count: u32| List::of(&(1..count).map(|id| (id, "é")).collect::<Vec<_>>());
    let mut calls = vec![
        few(b"\x80").call_in(MODES[0], 1, &limit, 0),
        few(b"b").call_in(MODES[1], 1, &limit, 0),
        few(b"b").call_in(MODES[0], 1, &field, 0),
    ];
    for (mode, strings, size) in [(MODES[0], 1_000, 67_200), (MODES[1], 1_000, 33_600)] {
        calls.push(all(strings as u32).call(mode, 1, &image(strings, size), 0));
    }
    calls
}

/// Lists at random of images of a layout.
fn layouts(layout: Layout) -> Vec<Call> {
    let mut random = Random(36 + u64::from(layout.0));
    let tries = std::iter::repeat_with(|| {
        let image = make(&mut random, layout, SMALL).image;
        let mode = random.pick(&MODES);
        drawn(&mut random, mode, layout, &image)
    });
    tries.take(100).flatten().take(24).collect()
}
