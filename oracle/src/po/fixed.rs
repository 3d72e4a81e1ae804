//! The fixed calls of translators' files: one by one what document 02, No. 1, says of a file and of an image, each with the
//! end that it is named for.

use super::files::{self, pair};
use super::words::{image, of_one_hash};
use super::{Call, Lent};
use crate::image::layout::Layout;
use crate::image::reading::Reading;
use crate::patches::texts;

/// How a call ends.
#[derive(Clone, PartialEq, Debug)]
pub enum End {
    /// These strings get these values, all others stay.
    Sets(Vec<(usize, String)>),
    Writes(String),
    Refused(u32),
}

/// A call by its name, with as much lent as it takes.
pub struct Case {
    pub name: String,
    pub call: Call,
    pub end: End,
}

impl Case {
    /// The judge's answer is what the case is named for.
    pub fn is_as_named(&self) -> bool {
        let answer = self.call.answer(None);
        match &self.end {
            End::Refused(number) => answer.end == Err(*number),
            End::Writes(file) => {
                answer.end == Ok(file.len()) && answer.lent.out.starts_with(file.as_bytes())
            }
            End::Sets(edits) => {
                answer.end.is_ok_and(|length| self.sets(&answer.lent.out[..length], edits))
            }
        }
    }

    /// An image has the values that are stated, and the units that it had in all other strings.
    fn sets(&self, new: &[u8], edits: &[(usize, String)]) -> bool {
        let values = |image| {
            let reading = Reading { image, ..self.call.reading() };
            let units = |string| texts::units(&reading, string);
            reading.strings().iter().map(units).collect::<Vec<_>>()
        };
        let mut wanted = values(&self.call.image[..]);
        for (id, value) in edits {
            wanted[*id] = value.encode_utf16().collect();
        }
        let reading = Reading { image: new, ..self.call.reading() };
        reading.refusal() == 0 && values(new) == wanted
    }
}

/// Yes stands at 0, wide at 3 and again at 8, No at 1 and at the same place at 10; Yes and Only are identifiers too.
pub const STRINGS: &str =
    "n:Yes|n:No|N:Yes|w:Yes|n:|w:Café|N:Only|n:a\nb\tc\"d\\e|n:Yes|w:😀|=1|u:d800.61|n:\u{1}x|n:\u{7f}";

/// The call with room for its result and some more.
fn roomy(call: Call) -> Call {
    let most = call.lengths().and_then(|lengths| lengths.into_iter().max());
    call.lending(most.unwrap_or(64) + 9)
}

/// Each case in one layout and one mode, with room for every result.
pub fn cases(layout: Layout, mode: u8) -> Vec<Case> {
    let (layout, mut cases) = (layout.0, vec![]);
    for (name, file, end) in files::all() {
        let image = image(layout, STRINGS);
        let call = Call { file: Some(file), layout, mode, image, lent: Lent::default() };
        cases.push(Case { name: name.into(), call: roomy(call), end });
    }
    for (name, strings, file, end) in files::alike() {
        let (image, file) = (image(layout, &strings), Some(file));
        let call = Call { file, layout, mode, image, lent: Lent::default() };
        cases.push(Case { name: name.into(), call: roomy(call), end });
    }
    for (name, strings, end) in written() {
        let image = image(layout, &strings);
        let call = Call { file: None, layout, mode, image, lent: Lent::default() };
        cases.push(Case { name: name.into(), call: roomy(call), end });
    }
    cases
}

// ---- "Also write such a file from an image".

fn written() -> Vec<(&'static str, String, End)> {
    let [one, other] = of_one_hash();
    let twins = format!("w:{one}|w:{other}|w:{one}|n:\0a|n:a|w:{other}");
    let twins_written = [&one[..], &other, "a"];
    let pairs = |ids: &[&str]| {
        End::Writes(ids.iter().map(|id| format!("msgid \"{id}\"\nmsgstr \"\"\n\n")).collect())
    };
    // Each half of a pair alone, in a wrong order, doubled; and one that is whole.
    let lone =
        "u:d800|u:dc00|u:dbff.61|u:61.dfff|u:dc00.d800|u:d800.d800.dc00|u:d800.dc00.dc00|w:😀";
    let each = ["Yes", "No", "Café", "a\\nb\\tc\\\"d\\\\e", "😀", "\u{7f}"];
    let by_lengths = ["\u{7f}", "\u{80}", "\u{9f}", "\u{7ff}", "\u{800}"];
    let edges = ["\u{d7ff}", "\u{e000}", "\u{ffff}", "\u{feff}", "\u{10000}", "\u{10ffff}"];
    let wide = |values: &[&str]| values.iter().map(|said| format!("w:{said}|")).collect::<String>();
    let (by_lengths_told, edges_told) = (wide(&by_lengths), wide(&edges));
    let escapes = ["\\\"", "\\\\", "\\\\n", "\\\\\\\""];
    let cases: Vec<(_, &str, _)> = vec![
        ("no string", "", pairs(&[])),
        ("one string", "n:Yes", pairs(&["Yes"])),
        ("each kind", STRINGS, pairs(&each)),
        ("in id order", "n:b|n:a|w:c|n:A", pairs(&["b", "a", "c", "A"])),
        ("equal ones once", "n:a|n:b|n:a|n:a|n:b", pairs(&["a", "b"])),
        ("equal ones whatever the width", "w:a|n:b|n:a|w:b|w:é|w:é", pairs(&["a", "b", "é"])),
        ("equal ones at one place", "n:ab|=0|w:ab|=2", pairs(&["ab"])),
        ("identifiers are not written", "N:a|n:b|W:c", pairs(&["b"])),
        ("an identifier before the plain one", "N:a|n:b|n:a", pairs(&["b", "a"])),
        ("an identifier at its place", "n:a|+0|n:b", pairs(&["a", "b"])),
        ("empty ones are not written", "n:|w:|n:a|n:", pairs(&["a"])),
        ("nothing to write", "n:|N:a|u:d800|n:\u{1f}", pairs(&[])),
        ("newline and tab", "n:\n|n:\t|n:a\n|n:\n\n", pairs(&["\\n", "\\t", "a\\n", "\\n\\n"])),
        ("quotes and backslashes", "n:\"|n:\\|n:\\n|n:\\\"", pairs(&escapes)),
        ("units below 32", "n:\0|n:\u{1f}|n:a\r|w:é\u{8}|w:\n\u{b}|n: ", pairs(&[" "])),
        ("127 and from 128 on", &by_lengths_told, pairs(&by_lengths)),
        ("around surrogates, and at the ends", &edges_told, pairs(&edges)),
        ("lone surrogates", lone, pairs(&["😀"])),
        ("values of one hash", &twins, pairs(&twins_written)),
        ("a line as a value", "n:msgid \"a\"|n:#|n:# a", pairs(&["msgid \\\"a\\\"", "#", "# a"])),
    ];
    cases.into_iter().map(|(name, strings, end)| (name, strings.to_owned(), end)).collect()
}

// ---- What is lent, by one on either side.

/// A call that is accepted, with as much room as each of its steps takes, one byte less and one more.
pub fn rooms(call: &Call) -> Vec<Call> {
    let mut lengths = call.lengths().unwrap();
    lengths.sort_unstable();
    lengths.dedup();
    let rooms = lengths.iter().flat_map(|length| [length.saturating_sub(1), *length, length + 1]);
    rooms.map(|room| call.clone().lending(room)).collect()
}

/// With each part of what is lent one shorter, and some longer.
pub fn spaces(call: &Call) -> Vec<Call> {
    let with = |change: &dyn Fn(&mut Lent)| {
        let mut call = call.clone();
        change(&mut call.lent);
        call
    };
    vec![
        with(&|lent| lent.text.truncate(lent.text.len().saturating_sub(1))),
        with(&|lent| lent.ends.truncate(lent.ends.len().saturating_sub(1))),
        with(&|lent| lent.work.truncate(lent.work.len().saturating_sub(1))),
        with(&|lent| lent.text.extend([7; 5])),
        with(&|lent| lent.ends.extend([7; 5])),
        with(&|lent| lent.work.extend([7; 5])),
        with(&|lent| lent.out.clear()),
        with(&|lent| {
            lent.work.truncate(lent.work.len().saturating_sub(1));
            lent.out.truncate(lent.out.len().saturating_sub(10));
        }),
    ]
}

/// Images that show one thing each of the single patches: lengths that rise and fall, storage that is taken apart, in place
/// and not; with the file of each.
pub fn stepped() -> Vec<(&'static str, &'static str, String)> {
    let long = "x".repeat(40);
    let pairs =
        |edits: &[(&str, &str)]| edits.iter().map(|(id, text)| pair(id, text)).collect::<String>();
    vec![
        (
            "the first longer, the last shorter",
            "n:a|n:bbbbbbbbbbbbbbbbbbbbbbbb|n:c",
            pairs(&[("a", &long), ("bbbbbbbbbbbbbbbbbbbbbbbb", "b")]),
        ),
        (
            "the same, told in the other order",
            "n:a|n:bbbbbbbbbbbbbbbbbbbbbbbb|n:c",
            pairs(&[("bbbbbbbbbbbbbbbbbbbbbbbb", "b"), ("a", &long)]),
        ),
        (
            "the first shorter, the last longer",
            "n:aaaaaaaaaaaaaaaaaaaaaaaa|n:b",
            pairs(&[("aaaaaaaaaaaaaaaaaaaaaaaa", "a"), ("b", &long)]),
        ),
        (
            "one in the middle longer",
            "n:a|n:b|n:cccccccccccccccc|n:d",
            pairs(&[("a", "A"), ("b", &long), ("cccccccccccccccc", "C")]),
        ),
        (
            "shared storage is taken apart by the first",
            "n:abcdefghij|=0|=0|=0|n:b",
            pairs(&[("abcdefghij", "x")]),
        ),
        (
            "shared storage, all at once in place length",
            "n:abcdefghij|=0|=0|n:b",
            pairs(&[("abcdefghij", "ABCDEFGHIJ")]),
        ),
        ("shared with an identifier", "n:abcd|+0|n:b|n:c", pairs(&[("abcd", "ABCD"), ("b", "B")])),
        ("all in place", "n:abcd|n:b|n:c|w:é", pairs(&[("abcd", "ABCD"), ("c", "C")])),
        ("in place and then not", "n:abcd|n:b|n:c|w:é", pairs(&[("abcd", "ABCD"), ("c", "CC")])),
        ("not and then in place", "n:abcd|n:b|n:c|w:é", pairs(&[("abcd", "ABCDE"), ("c", "C")])),
        (
            "wide strings come to stand at odd places",
            "n:ab|w:é|n:c|w:ü|n:d|w:",
            pairs(&[("ab", "a"), ("c", "ccc"), ("d", "é")]),
        ),
        (
            "wide ones become narrow",
            "w:é|w:ü|w:ö|n:a|w:",
            pairs(&[("é", "e"), ("ü", "u"), ("ö", "o")]),
        ),
        (
            "overflow entries come and go",
            "n:a|n:b|w:é",
            pairs(&[("a", &"x".repeat(255)), ("b", &"é".repeat(256)), ("é", &"y".repeat(254))]),
        ),
        ("an identifier's storage", "N:ab|n:ab|=0|n:c", pairs(&[("ab", "abc"), ("c", "d")])),
    ]
}

/// Their calls, in a layout and a mode.
pub fn steps(layout: Layout, mode: u8) -> Vec<(&'static str, Call)> {
    let call = |(name, strings, file): (&'static str, &str, String)| {
        let (layout, file, lent) = (layout.0, Some(file.into_bytes()), Lent::default());
        let image = image(layout, strings);
        (name, roomy(Call { file, layout, mode, image, lent }))
    };
    stepped().into_iter().map(call).collect()
}
