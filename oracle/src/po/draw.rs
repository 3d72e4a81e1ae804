//! Calls of translators' files at random.

use std::collections::BTreeSet;

use super::words::word;
use super::{Call, Lent};
use crate::image::layout::{Layout, LAYOUTS};
use crate::image::maker::{make, Shape, SMALL};
use crate::image::reading::Reading;
use crate::patches::draw::prepared;
use crate::patches::texts;
use crate::random::Random;

/// Many short strings that say the same, wide and narrow, plain and identifiers, on shared storage.
const TOLD: Shape = Shape { strings: 14, wide: 3, functions: 3, word: Some(word), ..SMALL };
/// A hundred strings that say much the same, so that a file has many pairs.
const MANY: Shape = Shape { strings: 120, word: Some(letters), ..TOLD };

fn letters(random: &mut Random) -> Vec<u16> {
    (0..random.within(1..5)).map(|_| random.pick(&[0x61, 0x62, 0x63, 0xe9])).collect()
}

pub fn drawn(random: &mut Random) -> Call {
    loop {
        if let Some(call) = call(random) {
            return call;
        }
    }
}

fn call(random: &mut Random) -> Option<Call> {
    let layout = random.pick(&LAYOUTS);
    let shape = if random.one_in(40) { MANY } else { TOLD };
    let made = make(random, layout, shape);
    // Of no strings there is little to say.
    if made.strings.len() < 2 && !random.one_in(8) {
        return None;
    }
    let (layout, image) = prepared(random, made)?;
    let mut call = Call {
        file: (!random.one_in(6)).then(|| file(random, layout, &image)),
        layout: if random.one_in(200) { random.pick(&[5, 255]) } else { layout.0 },
        mode: if random.one_in(200) { random.pick(&[2, 255]) } else { random.below(2) as u8 },
        image,
        lent: Lent::default(),
    };
    // At times read as another layout than it was made for.
    if random.one_in(64) {
        call.layout = random.pick(&LAYOUTS).0;
    }
    lend(random, &mut call);
    Some(call)
}

// ---- What is lent.

fn lend(random: &mut Random, call: &mut Call) {
    let space = call.space();
    // No more than an image could ask for: a damaged one has any count.
    let mut lengths = [space.text, space.ends, space.work.min(4 * call.image.len() + 4096)];
    for length in &mut lengths {
        if random.one_in(2) {
            *length += random.within(0..6);
        }
    }
    if random.one_in(12) {
        let short = &mut lengths[random.within(0..3)];
        *short =
            if random.one_in(2) { short.saturating_sub(1) } else { random.within(0..*short + 1) };
    }
    if call.file.is_none() {
        (lengths[0], lengths[1]) = (0, 0);
    }
    let mut words = |count: usize| (0..count).map(|_| random.next() as u32).collect();
    let (ends, work) = (words(lengths[1]), words(lengths[2]));
    let text = random.bytes(lengths[0]);
    // Where the call is not accepted with any room, the room does not matter, most often.
    call.lent = Lent { text: text.clone(), ends, work, out: vec![] };
    let room = room(random, call);
    call.lent.out = random.bytes(room);
}

/// Most often enough for each step; else as much as one of them takes, or a byte less.
fn room(random: &mut Random, call: &Call) -> usize {
    let Some(lengths) = call.lengths() else { return random.within(0..call.image.len() + 64) };
    let most = lengths.iter().max().unwrap();
    match random.below(12) {
        0 => random.pick(&lengths).saturating_sub(1),
        1 => random.pick(&lengths),
        2 => most.saturating_sub(1),
        3 => lengths.last().unwrap() + random.within(0..2),
        4 => random.within(0..most + 1),
        5 | 6 => *most,
        _ => most + random.within(0..40),
    }
}

// ---- Files.

/// A msgid and its msgstr, before they are escaped.
type Pair = (String, String);

fn file(random: &mut Random, layout: Layout, image: &[u8]) -> Vec<u8> {
    let mut pairs = pairs(random, layout, image);
    for i in (1..pairs.len()).rev() {
        pairs.swap(i, random.within(0..i + 1));
    }
    if pairs.is_empty() && random.one_in(3) {
        return vec![];
    }
    let mut file = String::new();
    for (id, text) in &pairs {
        file += &aside(random);
        file += &half(random, "msgid", id);
        file += &half(random, "msgstr", text);
    }
    file += &aside(random);
    let mut file = file.into_bytes();
    if random.one_in(4) {
        spoil(random, &mut file);
    }
    file
}

/// Pairs of some values of plain strings, at times with what is set aside or refused beside them.
fn pairs(random: &mut Random, layout: Layout, image: &[u8]) -> Vec<Pair> {
    let reading = Reading { layout, image, slip: None };
    let mut plain = BTreeSet::new();
    let mut others = BTreeSet::new();
    if reading.refusal() == 0 {
        let identifiers = texts::identifiers(&reading);
        for (string, is_identifier) in reading.strings().iter().zip(identifiers) {
            let units = texts::units(&reading, string);
            let is_low = |unit: &u16| *unit < 32 && *unit != 9 && *unit != 10;
            match String::from_utf16(&units) {
                Ok(text) if !units.iter().any(is_low) && !units.is_empty() => {
                    let set = if is_identifier { &mut others } else { &mut plain };
                    set.insert(text);
                }
                // What it would be, were it decoded all the same.
                _ => drop(
                    others.insert(String::from_utf16_lossy(&units).replace(char::is_control, " ")),
                ),
            }
        }
    }
    let others: Vec<String> = others.difference(&plain).cloned().collect();
    let plain: Vec<String> = plain.into_iter().collect();
    let mut ids: BTreeSet<String> = BTreeSet::new();
    let count = match plain.len() {
        0 => 0,
        1..20 => random.pick(&[0, 1, 1, 2, 2, 3, 3, 4, 6, 9]),
        _ => random.pick(&[1, 10, 40]),
    };
    ids.extend((0..count).map(|_| random.pick(&plain)));
    let mut pairs: Vec<Pair> = ids
        .into_iter()
        .map(|id| {
            let text = text(random, &id, &plain);
            (id, text)
        })
        .collect();
    let extra = |id: String, is_told: bool| (id, if is_told { "x".into() } else { String::new() });
    if random.one_in(4) {
        pairs.push((
            "".into(),
            random.pick(&["", "x\n", "Content-Type: text/plain; charset=UTF-8\n"]).into(),
        ));
    }
    if random.one_in(5) {
        pairs.push(extra(
            random.pick(&["q", "yes", "Ye", "\u{fffd}", "a b", "日"]).into(),
            random.one_in(6),
        ));
    }
    if random.one_in(5) && !others.is_empty() {
        pairs.push(extra(random.pick(&others), random.one_in(6)));
    }
    if random.one_in(24) && !pairs.is_empty() {
        let (id, _) = random.pick(&pairs);
        pairs.push(extra(id, random.one_in(2)));
    }
    pairs
}

/// A msgstr for a msgid.
fn text(random: &mut Random, id: &str, plain: &[String]) -> String {
    let size = id.len();
    match random.below(12) {
        0 => String::new(),
        1 => id.into(),
        2 => random.pick(plain),
        3 => "é".repeat(random.within(1..4)),
        4 => random
            .pick(&["\n", "\t", "\"", "\\", "a\\n", "\u{7f}", "日本", "😀", "\u{feff}"])
            .into(),
        5 => random.pick(&["x", "é"]).repeat(random.within(253..258)),
        6 => "z".repeat(random.within(1..40)),
        7 => "y".repeat(random.within(1..size + 4)),
        _ => "x".repeat(size),
    }
}

/// Lines that say nothing, or none.
fn aside(random: &mut Random) -> String {
    let lines = [
        "\n",
        "\n",
        "# a\n",
        "#\n",
        "#. b\n",
        "#: c.js:1\n",
        "#, fuzzy\n",
        "#| msgid \"x\"\n",
        "#~ msgid \"x\"\n",
        "# é\u{7f}\n",
    ];
    let count = random.pick(&[0, 0, 1, 1, 1, 2, 3]);
    (0..count).map(|_| random.pick(&lines)).collect()
}

/// A keyword and its text, at times in pieces.
fn half(random: &mut Random, keyword: &str, text: &str) -> String {
    let escape = |one: char| match one {
        '\n' => "\\n".into(),
        '\t' => "\\t".into(),
        '"' => "\\\"".into(),
        '\\' => "\\\\".into(),
        one => one.to_string(),
    };
    let mut line = format!("{keyword} \"");
    let is_wrapped = random.one_in(4);
    if is_wrapped && random.one_in(2) {
        line += "\"\n\"";
    }
    for one in text.chars() {
        line += &escape(one);
        if is_wrapped && random.one_in(3) {
            line += "\"\n\"";
        }
    }
    line + "\"\n"
}

/// One thing in a file is otherwise: a byte, a line, or what people's tools do.
fn spoil(random: &mut Random, file: &mut Vec<u8>) {
    if file.is_empty() {
        file.extend(random.pick(&[&b"x"[..], b" \n", b"\"\"\n", b"msgid \"\"\n", b"\xef\xbb\xbf"]));
        return;
    }
    let at = random.within(0..file.len());
    let any =
        [b'"', b'\\', b'\n', b' ', b'#', b'm', b't', 0, 9, 13, 31, 127, 0x80, 0xc3, 0xed, 0xff];
    match random.below(10) {
        0 | 1 => file[at] = random.pick(&any),
        2 => drop(file.remove(at)),
        3 => file.insert(at, random.pick(&any)),
        4 => file[at] ^= 1 << random.below(8),
        5 => file.truncate(at),
        6 => drop(file.pop()),
        7 => {
            // A line goes, or comes twice.
            let mut lines: Vec<Vec<u8>> =
                file.split_inclusive(|byte| *byte == b'\n').map(<[u8]>::to_vec).collect();
            let line = random.within(0..lines.len());
            if random.one_in(2) {
                lines.remove(line);
            } else {
                lines.insert(line, lines[line].clone());
            }
            *file = lines.concat();
        }
        8 => {
            let lines = [
                &b"msgctxt \"x\"\n"[..],
                b"msgid_plural \"x\"\n",
                b"msgstr[0] \"x\"\n",
                b"\"x\"\n",
                b"msgid \"x\"\n",
                b"  \n",
                b"\n",
                b"#\n",
            ];
            let mut places: Vec<usize> = vec![0];
            places.extend((0..file.len()).filter(|at| file[*at] == b'\n').map(|at| at + 1));
            let place = random.pick(&places);
            let line = random.pick(&lines);
            file.splice(place..place, line.iter().copied());
        }
        _ => {
            let text = String::from_utf8_lossy(file).into_owned();
            let text = match random.below(5) {
                0 => text.replace('\n', "\r\n"),
                1 => format!("\u{feff}{text}"),
                2 => text.replacen("msgid ", "msgid  ", 1),
                3 => text.replacen("msgstr ", "msgstr\t", 1),
                _ => text.replacen("\\n", "\\r", 1),
            };
            *file = text.into_bytes();
        }
    }
}
