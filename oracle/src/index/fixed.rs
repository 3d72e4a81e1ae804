//! The fixed calls of an index: small images of every kind of string, indexes by one on either side of what they take,
//! lookups in any words, parts of listings.

use super::images::{broken, count_of, garbage, image, Kinds, KINDS};
use super::{filling, index_of, listing, listing_of, looking_up, LIST};
use crate::image::damage::DAMAGES;
use crate::image::layout::LAYOUTS;
use crate::image::maker::{make, SMALL};
use crate::image::reading::Reading;
use crate::random::Random;
use crate::stream::Call;

pub fn calls() -> Vec<Call> {
    let mut calls = chosen();
    calls.extend(layouts());
    calls.extend(many());
    calls.extend(refused());
    calls.extend(damaged());
    calls.extend(looked_up());
    calls.extend(counts());
    calls.extend(parts());
    calls.extend(lent());
    calls
}

// ---- Filling, and listing with an index.

const CHOSEN: [&str; 26] = [
    "",
    "n0",
    "W0",
    "n3 w2 N4 W1",
    // Wide strings at odd places.
    "n1 w2 N1 W1 n3 w0",
    "n1 w1 w1 n2 w3",
    // Identifiers in every position.
    "n1 n2 n3",
    "N1 n2 n3",
    "n1 N2 n3",
    "n1 n2 N3",
    "N1 N2 n3",
    "n1 N2 N3",
    "N1 n2 N3",
    "N1 N2 N3",
    "N1 N0 n2 w1 W2 W0 n1 N3",
    "w1 n2 n3 w1 w0 n0",
    // Overflow pairs that are needed, beside the longest lengths of a small entry.
    "n512 n254@2 w255@1 n1 N256@100 W254@4",
    "n1 n300 N255@7 w2",
    // And such that are not: all, some, the first, the last.
    "n1+ N2+ w3+",
    "n1+ n2 w3+ N0+ n4 W1+",
    "w2+ n1 n2",
    "n1 n2 N3+",
    // Shared storage: all of a string, its parts, across two, empty ones within.
    "n4 n4@0 N2@1 w2@0 w1@1 n0@4 N1@3 n0@2",
    "n3 n3 n4@1 N3@0 w2@1 w3@0",
    "w3 w3@0 w1@2 W1@3 w0@5 n0@6 w2@1+",
    "N0 N0@0 w0 W0@0 n0+",
];

/// Each image with an index as it is asked for, shorter and longer, and its listing.
fn chosen() -> Vec<Call> {
    let mut calls = vec![];
    for (i, strings) in CHOSEN.iter().enumerate() {
        let layout = LAYOUTS[i % 5];
        let image = image(layout, strings, KINDS[i % 3]);
        let needed = 3 * count_of(&image);
        let mut lengths = vec![0, needed.saturating_sub(1), needed, needed + 1, needed + 5];
        lengths.dedup();
        calls.extend(lengths.iter().map(|length| filling(layout, &image, &garbage(*length))));
        // Not all where it is long: the calls are recorded.
        let room = (listing_of(layout, &image).len() + 3).min(700);
        calls.push(listing(layout, &image, &garbage(needed + 2), 0, &vec![0x5c; room]));
    }
    calls
}

/// One image in all layouts, with its kinds told in each way.
fn layouts() -> Vec<Call> {
    let mut calls = vec![];
    for (i, layout) in LAYOUTS.into_iter().enumerate() {
        let told = |kinds| image(layout, "N2 n1+ W2 w1+ n3@0 N0+ n2", kinds);
        let index = garbage(21);
        calls.extend(KINDS.map(|kinds| filling(layout, &told(kinds), &index)));
        calls.push(listing(layout, &told(KINDS[i % 3]), &index, 0, &[0x5c; 200]));
    }
    calls
}

/// As many strings as an index of a call holds, and one more.
fn many() -> Vec<Call> {
    let strings = |count: usize| {
        let string = |i: usize| format!("{}{}@{}", ["n", "W", "N"][i % 3], i % 4, i % 9);
        let rest: Vec<String> = (1..count).map(string).collect();
        image(LAYOUTS[0], &format!("n16 {}", rest.join(" ")), Kinds::Longest)
    };
    let counts = [LIST / 3, LIST / 3 + 1];
    counts.map(|count| filling(LAYOUTS[0], &strings(count), &garbage(LIST))).into()
}

/// Images that are refused with each number, and one that is not, each with an index that is long enough or not.
fn refused() -> Vec<Call> {
    let mut calls = vec![];
    for (i, layout) in (0..7).zip(LAYOUTS.into_iter().cycle()) {
        let whole = image(layout, "n2 N1+ w1 n3", Kinds::Longest);
        let image = broken(layout, whole, i);
        assert_eq!(Reading { layout, image: &image, slip: None }.refusal(), i);
        for length in [0, 11, 12] {
            let index = garbage(length);
            calls.push(filling(layout, &image, &index));
            calls.push(listing(layout, &image, &index, 0, &[0x5c; 40]));
        }
    }
    // Where there is no count to be read at all.
    calls.push(filling(LAYOUTS[0], &[], &garbage(0)));
    calls.push(filling(LAYOUTS[0], &[], &garbage(2)));
    calls.push(listing(LAYOUTS[0], &[], &garbage(2), 0, &[0x5c; 4]));
    calls
}

/// Each damage once, with an index of any length.
fn damaged() -> Vec<Call> {
    let mut random = Random(37);
    let mut calls = vec![];
    for (i, (_, damage)) in DAMAGES.iter().enumerate() {
        let layout = LAYOUTS[i % 5];
        let made = std::iter::repeat_with(|| make(&mut random, layout, SMALL));
        let found = made.take(100).find_map(|made| {
            let image = damage(&mut Random(i as u64), &made)?;
            Some((image, made.strings.len()))
        });
        let Some((image, count)) = found else { continue };
        let index = garbage((3 * count + i % 3).saturating_sub(1));
        calls.push(match i % 2 {
            0 => filling(layout, &image, &index),
            _ => listing(layout, &image, &index, 0, &[0x5c; 30]),
        });
    }
    calls
}

// ---- Looking up.

/// In an index that was filled, and in other words: every id, the ids that are none, and an index that is longer than
/// asked for, or shorter.
fn looked_up() -> Vec<Call> {
    let whole = image(LAYOUTS[3], "N2 n1+ W2 w1+ n3@0", Kinds::Empty);
    let mut calls = vec![];
    for (count, words) in [
        (5, index_of(LAYOUTS[3], &whole)),
        (4, garbage(12)),
        (3, vec![u32::MAX; 9]),
        (2, vec![0; 6]),
        (1, vec![1 << 31, 1 << 24, 4]),
        (1, vec![3, 2, 1]),
        (0, vec![]),
    ] {
        let length = words.len();
        let past = [count, count + 1, count + (1 << 32), 1 << 32, 1 << 63, u64::MAX];
        calls.extend((0..count).chain(past).map(|id| looking_up(&words, count, id)));
        let longer = [&words[..], &garbage(4)].concat();
        for length in [length + 1, length + 2, length + 4] {
            calls.extend([0, count].map(|id| looking_up(&longer[..length], count, id)));
        }
        for length in [length.saturating_sub(1), length / 3, 0] {
            let ids = [0, count.saturating_sub(1), count, u64::MAX];
            calls.extend(ids.map(|id| looking_up(&words[..length], count, id)));
        }
    }
    // Where another stride than the count reads other words.
    calls.extend((0..3).map(|id| looking_up(&garbage(15), 3, id)));
    calls
}

/// Counts of which three times as many wrap, at 32 and at 64 bits, to no words and to some; and counts that themselves do
/// at 32 bits.
fn counts() -> Vec<Call> {
    let third = |bits: u32, more: u128| (((1u128 << bits) + more) / 3) as u64;
    let mut calls = vec![];
    for (count, length) in [
        (third(64, 2), 2),
        (third(64, 5), 5),
        (third(64, 8), 9),
        (third(65, 1), 1),
        (third(65, 4), 5),
        (third(32, 2), 2),
        (third(32, 5), 6),
        (third(33, 1), 1),
        (1 << 32, 0),
        ((1 << 32) + 1, 3),
        ((1 << 32) + 2, 7),
        (1 << 62, 3),
        (1 << 63, 0),
        ((1 << 63) + 1, 3),
        (u64::MAX, 0),
        (u64::MAX, 6),
        (u64::MAX - 1, 3),
    ] {
        let ids = [0, 1, count - 1, count, u64::MAX];
        calls.extend(ids.map(|id| looking_up(&garbage(length), count, id)));
    }
    calls
}

// ---- Listing.

/// Parts of one listing: from each kind of place, into no room, little, just enough and more.
fn parts() -> Vec<Call> {
    let layout = LAYOUTS[1];
    let image = image(layout, "n3 W2 N4+ w0 n0@1", Kinds::Empty);
    let length = listing_of(layout, &image).len() as u64;
    let froms = [0, 1, 15, 16, 17, 40, length - 1, length, length + 1, 1 << 32, u64::MAX];
    let index = garbage(15);
    let mut calls = vec![];
    for from in froms {
        let left = length.saturating_sub(from) as usize;
        let mut rooms = vec![0, 1, 33, left.saturating_sub(1), left, left + 2];
        rooms.sort();
        rooms.dedup();
        calls.extend(
            rooms.iter().map(|room| listing(layout, &image, &index, from, &vec![0x5c; *room])),
        );
    }
    // What a byte of 2^32 or more is, cut to 32 bits.
    calls.push(listing(layout, &image, &index, (1 << 32) + 16, &[0x5c; 8]));
    calls
}

/// What the index held before does not count, and an index by one on either side of what is asked for.
fn lent() -> Vec<Call> {
    let layout = LAYOUTS[2];
    let image = image(layout, "N2 w1 n3", Kinds::Single);
    let other = self::image(layout, "w0 N1 W2", Kinds::Single);
    let held = [vec![0; 9], index_of(layout, &image), index_of(layout, &other), vec![u32::MAX; 9]];
    let out = [0x5c; 90];
    let mut calls: Vec<Call> =
        held.iter().map(|index| listing(layout, &image, index, 0, &out)).collect();
    for length in [0, 3, 6, 8, 9, 10, 13] {
        calls.push(listing(layout, &image, &garbage(length), 0, &out));
        calls.push(listing(layout, &image, &garbage(length), 7, &[]));
    }
    // No strings: an empty index is long enough, and all of a longer one stays.
    let none = self::image(layout, "", Kinds::Empty);
    calls.extend([0, 1, 3].map(|length| listing(layout, &none, &garbage(length), 0, &out)));
    calls
}
