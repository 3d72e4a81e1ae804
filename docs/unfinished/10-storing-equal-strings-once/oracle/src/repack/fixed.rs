//! The fixed calls of storing equal strings once: small images, each told by its strings, with the places that they have to get.

use super::draw::packed;
use super::near::Near;
use super::reading::{Asked, Packer, WORDS};
use crate::image::damage::DAMAGES;
use crate::image::layout::*;
use crate::image::maker::{make, SMALL};
use crate::image::reading::Reading;
use crate::index::images::{broken, garbage, kind_words, KINDS};
use crate::index::LIST;
use crate::job::packing::{Mode, MODES};
use crate::patches::odd::packed as given;
use crate::patches::small::Bare;
use crate::patches::{even, Kind, Patch};
use crate::po::words::{of_one_hash, told};
use crate::random::Random;
use crate::stream::Call;

pub fn calls() -> Vec<Call> {
    let mut calls = chosen();
    calls.extend(long());
    calls.extend(triples());
    calls.extend(records());
    calls.extend(again());
    calls.extend(many());
    calls.extend(lent());
    calls.extend(rooms());
    calls.extend(refused());
    calls.extend(damaged());
    calls.extend(limits());
    calls
}

/// An image of strings, with kinds told in turn, and hash slots that are no string's hash and all differ.
fn bare(layout: Layout, strings: &str, i: usize) -> Bare {
    let mut bare = told(layout.0, strings);
    bare.kinds = kind_words(&bare, KINDS[i % 3]);
    let identifiers = bare.strings.iter().filter(|string| string.1).count() as u32;
    bare.hashes = (1..=identifiers).map(|i| i.wrapping_mul(0x00ab_cdef)).collect();
    bare
}

/// A call with two words more than are asked for, and with room for three bytes more.
fn roomy(asked: &Asked) -> Call {
    let made = packed(asked).unwrap();
    asked.call(&garbage(WORDS * asked.count() + 2), &vec![0x5c; made.len() + 3])
}

// ---- Which strings share a place, and where they go.

/// Strings; then the offsets that they get and the size of storage, in plain mode and, where it is not the same, in even mode.
const CHOSEN: [(&str, &[u64], &[u64]); 54] = [
    ("n:ab|n:ab", &[0, 0, 2], &[]),
    ("w:ab|w:ab", &[0, 0, 4], &[]),
    ("n:ab|n:c|n:ab|n:c|n:ab", &[0, 2, 0, 2, 0, 3], &[]),
    ("w:ab|w:ab|n:a|w:ab", &[0, 0, 4, 0, 5], &[]),
    ("n:c|n:b|n:a|n:b|n:c", &[0, 1, 2, 1, 0, 3], &[]),
    ("n:a|n:bc|n:a|n:d", &[0, 1, 0, 3, 4], &[]),
    ("n:x|n:a|n:a", &[0, 1, 1, 2], &[]),
    ("n:dd|n:c|n:dd|n:eee|n:c", &[0, 2, 0, 3, 2, 6], &[]),
    // Empty ones of each width.
    ("n:|n:|w:|w:", &[0, 0, 0, 0, 0], &[]),
    ("n:|n:a|w:|n:|w:", &[0, 0, 1, 0, 1, 1], &[0, 0, 2, 0, 2, 2]),
    ("n:a|n:|w:|n:|w:|n:b|w:|n:", &[0, 1, 1, 1, 1, 1, 1, 1, 2], &[0, 1, 2, 1, 2, 2, 2, 1, 3]),
    ("w:|n:a|w:|w:b", &[0, 0, 0, 1, 3], &[0, 0, 0, 2, 4]),
    ("n:a|w:", &[0, 1, 1], &[0, 2, 2]),
    ("n:ab|n:|n:c|n:", &[0, 2, 2, 2, 3], &[]),
    // The same units, or the same bytes, of the other width.
    ("n:a|w:a|n:a|w:a", &[0, 1, 0, 1, 3], &[0, 2, 0, 2, 4]),
    ("w:a|n:a|w:a", &[0, 2, 0, 3], &[]),
    ("n:a\0|w:a|n:a\0", &[0, 2, 0, 4], &[]),
    ("w:a|n:a\0|w:a", &[0, 2, 0, 4], &[]),
    // Parts of others: their fronts, their ends, from within, and the other way round.
    ("n:abc|n:ab|n:a|n:", &[0, 3, 5, 6, 6], &[]),
    ("n:abc|n:bc|n:c|n:", &[0, 3, 5, 6, 6], &[]),
    ("n:abcd|n:bc|n:b", &[0, 4, 6, 7], &[]),
    ("n:a|n:ab|n:abc|n:ab", &[0, 1, 3, 1, 6], &[]),
    ("w:abc|w:ab|w:bc|w:b", &[0, 6, 10, 14, 16], &[]),
    // Alike but for one thing.
    ("n:ab|n:cd|n:ab|n:cd", &[0, 2, 0, 2, 4], &[]),
    ("n:abc|n:abd|n:abc", &[0, 3, 0, 6], &[]),
    ("w:abc|w:abd|w:abd", &[0, 6, 6, 12], &[]),
    ("n:abc|n:xbc|n:xbc", &[0, 3, 3, 6], &[]),
    ("w:abc|w:xbc|w:abc", &[0, 6, 0, 12], &[]),
    ("u:61.62|u:61.162|u:161.62|u:61.62", &[0, 4, 8, 0, 12], &[]),
    ("u:161|u:162|u:161", &[0, 2, 0, 4], &[]),
    ("u:6162|u:6261", &[0, 2, 4], &[]),
    ("n:ab|n:ba|n:ab", &[0, 2, 0, 4], &[]),
    ("n:ac|n:bb|n:ca", &[0, 2, 4, 6], &[]),
    ("n:a\0b|n:a\0c|n:a\0b", &[0, 3, 0, 6], &[]),
    ("u:d800|u:dc00|u:d800", &[0, 2, 0, 4], &[]),
    // Gaps before first ones, and none before others.
    ("n:a|w:b|n:c|w:b|w:d", &[0, 1, 3, 1, 4, 6], &[0, 2, 4, 2, 6, 8]),
    ("w:b|n:a|w:b|n:c", &[0, 2, 0, 3, 4], &[]),
    ("w:b|n:a|w:b", &[0, 2, 0, 3], &[]),
    ("n:a|w:b|w:b|n:c|w:", &[0, 1, 1, 3, 4, 4], &[0, 2, 2, 4, 6, 6]),
    ("n:a|n:a|w:b", &[0, 0, 1, 3], &[0, 0, 2, 4]),
    ("n:a|w:b|n:c|w:d|n:e|w:f", &[0, 1, 3, 4, 6, 7, 9], &[0, 2, 4, 6, 8, 10, 12]),
    // Identifiers and plain strings.
    ("n:a|N:a|n:a|N:a|W:a|w:a", &[0, 0, 0, 0, 1, 1, 3], &[0, 0, 0, 0, 2, 2, 4]),
    ("n:ab|N:c|N:d|N:c|n:d|N:ab", &[0, 2, 3, 2, 3, 0, 4], &[]),
    ("N:|n:|W:|N:b", &[0, 0, 0, 0, 1], &[]),
    // Overflow pairs that nothing asks for.
    ("n+:ab|n:ab|w+:c|W:c", &[0, 0, 2, 2, 4], &[]),
    ("n:a|n+:b|n+:a", &[0, 1, 0, 2], &[]),
    // Storage as given: shared, overlapping, with bytes that no string has.
    ("n:abc|=0|n:abc|+0", &[0, 0, 0, 0, 3], &[]),
    ("n:abcab|n@0.2|n@3.2|n@1.2|n@2.1", &[0, 5, 5, 7, 9, 10], &[]),
    ("w:aba|w@0.1|w@4.1|w@2.1|w@1.1", &[0, 6, 6, 8, 10, 12], &[]),
    ("n:abab|w@0.1|w@2.1|n@0.2|n@2.2", &[0, 4, 4, 6, 6, 8], &[]),
    ("n:abc|n@0.1|n@0.2|n@0.3|n@0.0", &[0, 3, 4, 0, 6, 6], &[]),
    ("_:zz|n:ab|_:z|n:ab|_:zzz", &[0, 0, 2], &[]),
    ("_:zzzzz", &[0], &[]),
    ("", &[0], &[]),
];

/// The offsets of the strings that come out, and the size of storage.
fn places(asked: &Asked) -> Vec<u64> {
    let made = packed(asked).unwrap();
    let reading = Reading { image: &made, ..asked.reading() };
    let starts = reading.strings().into_iter().map(|string| string.start);
    starts.chain([reading.count(STORAGE).into()]).collect()
}

/// Each in both modes where they differ, else in one of them.
fn chosen() -> Vec<Call> {
    let mut calls = vec![];
    for (i, (strings, plain, even)) in CHOSEN.into_iter().enumerate() {
        let layout = LAYOUTS[i % 5];
        let image = bare(layout, strings, i).image();
        let differ = !even.is_empty();
        let even = if differ { even } else { plain };
        for (mode, expected) in MODES.into_iter().zip([plain, even]) {
            let asked = Asked { layout, mode, image: &image };
            assert_eq!(places(&asked), expected);
            calls.extend((differ || mode == MODES[i % 2]).then(|| roomy(&asked)));
        }
    }
    let [a, b] = of_one_hash();
    let image = bare(LAYOUTS[1], &format!("w:{a}|w:{b}|W:{a}"), 0).image();
    let asked = Asked { layout: LAYOUTS[1], mode: Mode::Plain, image: &image };
    assert_eq!(places(&asked), [0, 4, 0, 8]);
    calls.push(roomy(&asked));
    calls
}

/// Strings of 254 to 256 units, of which small entries and overflow pairs tell: each alike to another, first ones and others.
fn long() -> Vec<Call> {
    let told = |strings: &[(char, usize)]| -> String {
        let string = |(kind, count): &(char, usize)| format!("{kind}:{}", "x".repeat(*count));
        strings.iter().map(string).collect::<Vec<_>>().join("|")
    };
    let narrow = [255, 255, 254, 256, 254, 256].map(|count| ('n', count));
    let wide = [254, 255, 256, 255, 254].map(|count| ('w', count));
    let mixed = [('n', 1), ('w', 255), ('n', 255), ('W', 255), ('N', 255), ('w', 1), ('n', 255)];
    let mut calls = vec![];
    for (i, (strings, expected)) in [
        (&narrow[..], &[0, 0, 255, 509, 255, 509, 765][..]),
        (&wide, &[0, 508, 1018, 508, 0, 1530]),
        (&mixed, &[0, 2, 512, 2, 512, 768, 512, 770]),
    ]
    .into_iter()
    .enumerate()
    {
        let layout = LAYOUTS[i + 1];
        let image = bare(layout, &told(strings), i).image();
        let asked = Asked { layout, mode: Mode::Even, image: &image };
        assert_eq!(places(&asked), expected);
        calls.push(roomy(&asked));
    }
    calls
}

/// Every three strings of few kinds behind one of one byte, in even mode, and in plain mode every third of them.
fn triples() -> Vec<Call> {
    const SAID: [&str; 4] = ["n:a", "w:a", "w:", "n:"];
    let mut calls = vec![];
    for i in 0..64 {
        let [a, b, c] = [i / 16, i / 4 % 4, i % 4].map(|k| SAID[k]);
        let layout = LAYOUTS[i % 5];
        let bare = told(layout.0, &format!("n:x|{a}|{b}|{c}"));
        // Shorter, with no functions.
        let image = Bare { functions: vec![], tail: 0, debug: None, ..bare }.image();
        let modes = if i % 3 == 0 { &MODES[..] } else { &MODES[1..] };
        calls.extend(modes.iter().map(|mode| roomy(&Asked { layout, mode: *mode, image: &image })));
    }
    calls
}

// ---- The tail.

/// Small and large records, info places and a debug offset, or none; where the tail moves either way, and where it stays; with
/// all bits beside a large pointer set.
fn records() -> Vec<Call> {
    let mut calls = vec![];
    for (i, layout) in LAYOUTS.into_iter().enumerate() {
        for (k, strings) in ["n:abcd|n:abcd", "n:abc|n@0.2|n@1.2", "n:abc|w:d"].iter().enumerate() {
            let mut bare = bare(layout, strings, i);
            if (i + k) % 2 == 0 {
                bare.functions.iter_mut().for_each(|function| function.info = None);
                bare.debug = None;
            }
            let mut image = bare.image();
            // Bits 16 to 24 of the second record, which is large: a legacy pointer is no part of them, nor a modern one of 24.
            let at = HEADER + layout.record();
            image[at + 3] |= 1;
            if !layout.is_modern() {
                image[at + 2] = 0x5a;
            }
            let asked = Asked { layout, mode: MODES[(i + k) % 2], image: &image };
            calls.push(roomy(&asked));
        }
    }
    // Info places of large records alone, and of small ones alone.
    for (i, info) in [(1, [None, Some(6)]), (2, [Some(4), None])] {
        let mut bare = bare(LAYOUTS[i], "n:ab|n:ab|n:ab|n:ab", i);
        bare.functions.iter_mut().zip(info).for_each(|(function, info)| function.info = info);
        let image = bare.image();
        calls.push(roomy(&Asked { layout: LAYOUTS[i], mode: Mode::Plain, image: &image }));
    }
    calls
}

/// Images that a rebuild made in either mode, and those that this call made: in the same mode and in the other.
fn again() -> Vec<Call> {
    let mut calls = vec![];
    for (i, first) in MODES.into_iter().enumerate() {
        let layout = LAYOUTS[i + 2];
        let image = bare(layout, "n:a|w:b|n:a|w:b|N:c|w:", i).image();
        let (kind, new, room) = (Kind::ById, &b"ac"[..], usize::MAX);
        let patch = Patch { kind, mode: first, layout, id: 2, old: &[], new, image: &image, room };
        let rebuilt = even::read(&patch, None).unwrap();
        let repacked = packed(&Asked { layout, mode: first, image: &image }).unwrap();
        for image in [rebuilt, repacked] {
            calls.extend(MODES.map(|mode| roomy(&Asked { layout, mode, image: &image })));
        }
    }
    // Such strings as `odd` has, no two of which are alike.
    let image = given(3, "n2 w1 n1 w0 n2 W1").image();
    calls.extend(MODES.map(|mode| roomy(&Asked { layout: LAYOUTS[3], mode, image: &image })));
    calls
}

/// As many strings as a call has words for, and one more.
fn many() -> Vec<Call> {
    let most = LIST / WORDS;
    let told = |count: usize| {
        let string = |i: usize| format!("{}@{}.{}", ["n", "W", "N", "w"][i % 4], i % 5, i % 3);
        let rest: Vec<String> = (1..count).map(string).collect();
        bare(LAYOUTS[0], &format!("n:abcdefghij|{}", rest.join("|")), 1).image()
    };
    let call = |count: usize| {
        let image = told(count);
        let asked = Asked { layout: LAYOUTS[0], mode: Mode::Even, image: &image };
        let room = if count > most { 0 } else { packed(&asked).unwrap().len() };
        asked.call(&garbage(LIST), &vec![0x5c; room])
    };
    vec![call(most), call(most + 1)]
}

// ---- What is lent.

/// Work space by one on either side of what is asked for, and less than that; with each kind of words in it. The result has its
/// room, and none.
fn lent() -> Vec<Call> {
    let mut calls = vec![];
    for (i, (strings, lengths)) in [
        ("n:ab|n:ab|w:c|n:ab|w:c", &[0, 1, 5, 7, 10, 20, 24, 25, 26, 40][..]),
        ("n:ab|w:c|n:d", &[4, 12, 14, 15, 16]),
        ("n:a", &[0, 4, 5, 6]),
        ("", &[0, 1, 5]),
    ]
    .into_iter()
    .enumerate()
    {
        let (layout, mode) = (LAYOUTS[i], MODES[i % 2]);
        let image = bare(layout, strings, i).image();
        let asked = Asked { layout, mode, image: &image };
        let made = packed(&asked).unwrap();
        for length in lengths {
            calls.push(asked.call(&garbage(*length), &vec![0x5c; made.len()]));
            calls.push(asked.call(&garbage(*length), &[]));
        }
        let needed = WORDS * asked.count();
        for word in [0, 1, u32::MAX] {
            calls.push(asked.call(&vec![word; needed + 1], &vec![0x5c; made.len()]));
        }
    }
    calls
}

/// Room for the result, by one less and more, and as much as the image as given has, a rebuild of the same strings, and the other
/// mode.
fn rooms() -> Vec<Call> {
    let mut calls = vec![];
    for (i, strings) in
        ["n:abcdefgh|n:abcdefgh|w:c|n:d", "n:abc|w:d|n:e|w:f|w:d", "n:abcab|n@0.4|n@1.4", ""]
            .into_iter()
            .enumerate()
    {
        let layout = LAYOUTS[i];
        let image = bare(layout, strings, i).image();
        let made = MODES.map(|mode| packed(&Asked { layout, mode, image: &image }).unwrap().len());
        for (mode, length) in MODES.into_iter().zip(made) {
            let asked = Asked { layout, mode, image: &image };
            let mut rooms = vec![0, length - 1, length, length + 1, image.len(), made[0], made[1]];
            rooms.sort();
            rooms.dedup();
            let work = garbage(WORDS * asked.count());
            calls.extend(rooms.iter().map(|room| asked.call(&work, &vec![0x5c; *room])));
        }
    }
    calls
}

// ---- Refusals.

/// The number that a call has to be refused with, 0 for none.
fn refused_with(asked: &Asked, words: usize, room: usize, number: u32) -> Call {
    let (work, out) = (garbage(words), vec![0x5c; room]);
    let answer = Packer(None).repack(asked, &mut work.clone(), &mut out.clone());
    assert_eq!(answer.err().unwrap_or(0), number);
    asked.call(&work, &out)
}

/// Each of 1 to 6, and an image that is whole: with work space that is too short or not, and with room or not. The number that
/// comes first is given.
fn refused() -> Vec<Call> {
    let mut calls = vec![];
    for number in 0..7 {
        let i = number as usize;
        let (layout, mode) = (LAYOUTS[i % 5], MODES[i % 2]);
        let whole = bare(layout, "n:ab|N+:c|w:d|n:ab", i).image();
        let length = packed(&Asked { layout, mode, image: &whole }).unwrap().len();
        let image = broken(layout, whole, number);
        let asked = Asked { layout, mode, image: &image };
        for (words, room) in [(20, length), (20, length - 1), (19, length), (19, 0)] {
            let due = [(number != 0, number), (words < 20, 13), (room < length, 13)];
            let first = due.into_iter().find(|(is_due, _)| *is_due).map_or(0, |(_, number)| number);
            calls.push(refused_with(&asked, words, room, first));
        }
    }
    let nothing = Asked { layout: LAYOUTS[0], mode: Mode::Plain, image: &[] };
    calls.push(refused_with(&nothing, 0, 0, 1));
    calls.push(refused_with(&nothing, 3, 3, 1));
    calls
}

/// Each damage once.
fn damaged() -> Vec<Call> {
    let mut random = Random(41);
    let mut calls = vec![];
    for (i, (_, damage)) in DAMAGES.iter().enumerate() {
        let (layout, mode) = (LAYOUTS[i % 5], MODES[i % 2]);
        let made = std::iter::repeat_with(|| make(&mut random, layout, SMALL));
        let found = made.take(100).find_map(|made| {
            let image = damage(&mut Random(i as u64), &made).filter(|image| image.len() < 500)?;
            Some((image, made.strings.len()))
        });
        let Some((image, count)) = found else { continue };
        let asked = Asked { layout, mode, image: &image };
        calls.push(asked.call(&garbage(WORDS * count), &[0x5c; 16]));
    }
    calls
}

/// 11 with 12 and 13 due besides, and 12 with 13. `limits` has them by one on either side, and 13 of the work space besides.
fn limits() -> Vec<Call> {
    let call = |near: Near, mode: Mode, number: u32| {
        let image = near.image();
        refused_with(&Asked { layout: Layout(near.layout), mode, image: &image }, LIST, 8, number)
    };
    vec![call(Near::past_limit(0), Mode::Plain, 11), call(Near::past_field(1), Mode::Even, 12)]
}
