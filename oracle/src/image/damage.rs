//! Damage to one field of a valid image, up to the limit of a sentence and past it. What an image that
//! was damaged gets is for the reading to say: some damage is none.

use super::layout::*;
use super::maker::{put_record, Made};
use crate::leaves::record::{self, set_pointer};
use crate::random::Random;

/// A way to damage an image; None where the image has nothing that could be damaged so.
pub type Damage = fn(&mut Random, &Made) -> Option<Vec<u8>>;

pub const DAMAGES: [(&str, Damage); 34] = [
    ("cut short", cut_short),
    ("end cut off", end_cut_off),
    ("magic", magic),
    ("storage up to the footer", storage_up_to_footer),
    ("a count by one", count_by_one),
    ("a count that is huge", huge_count),
    ("a count that wraps", wrapping_count),
    ("kind count by one", kind_by_one),
    ("kind flag", kind_flag),
    ("kinds that wrap", kinds_that_wrap),
    ("small entry made full", made_full),
    ("full entry made small", made_small),
    ("overflow index", overflow_index),
    ("overflow indexes swapped", overflow_indexes_swapped),
    ("small entry to the end of storage", small_to_end),
    ("overflow pair to the end of storage", pair_to_end),
    ("overflow pair that wraps", pair_that_wraps),
    ("wide flag", wide_flag),
    ("narrow byte", narrow_byte),
    ("any byte of storage", storage_byte),
    ("body at the tail", body_at_tail),
    ("body at the footer", body_at_footer),
    ("body at 0", body_at_zero),
    ("body size that wraps", body_that_wraps),
    ("body on a large header", body_on_header),
    ("empty body on a large header", empty_body_on_header),
    ("info", info),
    ("debug", debug),
    ("large pointer at the tail", pointer_at_tail),
    ("large pointer at the footer", pointer_at_footer),
    ("large pointer over 32 bits", pointer_over_32_bits),
    ("bits beside the large pointer", bits_beside_pointer),
    ("one large header twice", header_twice),
    ("large headers that touch", headers_that_touch),
];

fn pick<T: Clone>(random: &mut Random, of: &[T]) -> Option<T> {
    (!of.is_empty()).then(|| random.pick(of))
}

/// The image with a word changed.
fn with_word(made: &Made, at: usize, word: u32) -> Option<Vec<u8>> {
    let mut image = made.image.clone();
    set_word(&mut image, at, word);
    Some(image)
}

// ---- 1 to 3.

fn cut_short(random: &mut Random, made: &Made) -> Option<Vec<u8>> {
    let length = random.pick(&[0, 1, 7, 8, 63, 64, 127, 128, 146, 147, 148]);
    Some(made.image[..length.min(made.image.len())].to_vec())
}

fn end_cut_off(random: &mut Random, made: &Made) -> Option<Vec<u8>> {
    let tail = made.footer() - made.tail;
    let less = random.pick(&[1, tail.saturating_sub(1), tail, tail + 1, tail + 4]);
    Some(made.image[..made.image.len() - less].to_vec())
}

fn magic(random: &mut Random, made: &Made) -> Option<Vec<u8>> {
    let mut image = made.image.clone();
    image[random.within(0..8)] ^= 1 << random.below(8);
    Some(image)
}

fn storage_up_to_footer(random: &mut Random, made: &Made) -> Option<Vec<u8>> {
    let size = made.footer() - made.storage + random.within(0..9);
    with_word(made, STORAGE, size.saturating_sub(4) as u32)
}

fn any_count(random: &mut Random) -> usize {
    random.pick(&[FUNCTIONS, KINDS, IDENTIFIERS, STRINGS, OVERFLOWS, STORAGE])
}

fn count_by_one(random: &mut Random, made: &Made) -> Option<Vec<u8>> {
    let at = any_count(random);
    let count = word(&made.image, at);
    with_word(made, at, if random.one_in(2) { count + 1 } else { count.wrapping_sub(1) })
}

fn huge_count(random: &mut Random, made: &Made) -> Option<Vec<u8>> {
    let at = any_count(random);
    with_word(made, at, random.pick(&[u32::MAX, u32::MAX - 3, 1 << 31, 1 << 20]))
}

/// A count such that its section's length is right modulo 2^32.
fn wrapping_count(random: &mut Random, made: &Made) -> Option<Vec<u8>> {
    let (at, size) = random.pick(&[
        (FUNCTIONS, made.layout.record() as u32),
        (KINDS, 4),
        (IDENTIFIERS, 4),
        (STRINGS, 4),
        (OVERFLOWS, 8),
    ]);
    // An entry of 12 bytes is as one of 4 here.
    let step = 1 << (32 - size.trailing_zeros());
    with_word(made, at, word(&made.image, at).wrapping_add(step))
}

// ---- 4 kinds.

fn kind_places(made: &Made) -> Vec<usize> {
    let kinds = HEADER + made.functions.len() * made.layout.record();
    (0..word(&made.image, KINDS) as usize).map(|i| kinds + 4 * i).collect()
}

fn kind_by_one(random: &mut Random, made: &Made) -> Option<Vec<u8>> {
    let at = pick(random, &kind_places(made))?;
    let kind = word(&made.image, at);
    with_word(made, at, if random.one_in(2) { kind + 1 } else { kind.wrapping_sub(1) })
}

fn kind_flag(random: &mut Random, made: &Made) -> Option<Vec<u8>> {
    let at = pick(random, &kind_places(made))?;
    with_word(made, at, word(&made.image, at) ^ IDENTIFIER)
}

/// Three counts of one kind whose sum is 2^32 more than it was.
fn kinds_that_wrap(_: &mut Random, made: &Made) -> Option<Vec<u8>> {
    let places = kind_places(made);
    let of = |flag| {
        let is = |at: &usize| word(&made.image, *at) & IDENTIFIER == flag;
        places.iter().copied().filter(is).take(3).collect::<Vec<_>>()
    };
    let chosen = [0, IDENTIFIER].into_iter().find(|flag| of(*flag).len() == 3)?;
    let [a, b, c] = of(chosen)[..] else { return None };
    let sum: u32 = [a, b, c].iter().map(|at| word(&made.image, *at) & !IDENTIFIER).sum();
    let mut image = made.image.clone();
    for (at, count) in [(a, IDENTIFIER - 1), (b, IDENTIFIER - 1), (c, sum + 2)] {
        set_word(&mut image, at, chosen | count);
    }
    Some(image)
}

// ---- 5 string.

fn ids(made: &Made, overflows: bool) -> Vec<usize> {
    (0..made.strings.len()).filter(|id| made.strings[*id].overflows == overflows).collect()
}

fn made_full(random: &mut Random, made: &Made) -> Option<Vec<u8>> {
    let at = made.small + 4 * pick(random, &ids(made, false))?;
    with_word(made, at, word(&made.image, at) | 0xff00_0000)
}

fn made_small(random: &mut Random, made: &Made) -> Option<Vec<u8>> {
    let at = made.small + 4 * pick(random, &ids(made, true))?;
    with_word(made, at, word(&made.image, at) & 0x00ff_ffff)
}

fn overflow_index(random: &mut Random, made: &Made) -> Option<Vec<u8>> {
    let at = made.small + 4 * pick(random, &ids(made, true))?;
    let small = word(&made.image, at);
    let changed = match random.below(3) {
        0 => small + 2,
        1 => small ^ 1 << random.within(1..24),
        _ => small | 0x00ff_fffe,
    };
    with_word(made, at, changed)
}

/// Indexes and pairs, so that only the order in which they are counted is wrong.
fn overflow_indexes_swapped(random: &mut Random, made: &Made) -> Option<Vec<u8>> {
    let all = ids(made, true);
    let [a, b] = all.get(random.within(0..all.len().max(1))..)?.get(..2)?.try_into().ok()?;
    let mut image = made.image.clone();
    for (id, k) in
        [(a, all.iter().position(|id| *id == b)?), (b, all.iter().position(|id| *id == a)?)]
    {
        let at = made.small + 4 * id;
        let small = word(&image, at) & 0xff00_0001 | (k as u32) << 1;
        set_word(&mut image, at, small);
        let text = made.strings[id];
        set_word(&mut image, made.overflow + 8 * k, text.offset as u32);
        set_word(&mut image, made.overflow + 8 * k + 4, text.count as u32);
    }
    Some(image)
}

/// An offset such that the string ends where storage does, or a little before or after.
fn near_end(random: &mut Random, made: &Made, size: usize) -> usize {
    let storage = word(&made.image, STORAGE) as usize;
    (storage + random.within(0..6)).saturating_sub(size + 2)
}

fn small_to_end(random: &mut Random, made: &Made) -> Option<Vec<u8>> {
    let id = pick(random, &ids(made, false))?;
    let text = made.strings[id];
    let at = made.small + 4 * id;
    let offset = near_end(random, made, text.size()) as u32;
    with_word(made, at, word(&made.image, at) & 0xff00_0001 | offset << 1)
}

fn pair_place(made: &Made, id: usize) -> usize {
    made.overflow + 8 * made.strings[..id].iter().filter(|text| text.overflows).count()
}

fn pair_to_end(random: &mut Random, made: &Made) -> Option<Vec<u8>> {
    let id = pick(random, &ids(made, true))?;
    let offset = near_end(random, made, made.strings[id].size());
    with_word(made, pair_place(made, id), offset as u32)
}

/// A pair whose end is right modulo 2^32.
fn pair_that_wraps(random: &mut Random, made: &Made) -> Option<Vec<u8>> {
    let id = pick(random, &ids(made, true))?;
    let at = pair_place(made, id);
    let mut image = made.image.clone();
    if made.strings[id].wide {
        set_word(&mut image, at + 4, made.strings[id].count as u32 + (1 << 31));
    } else {
        let before = random.within(1..9) as u32;
        set_word(&mut image, at, before.wrapping_neg());
        set_word(&mut image, at + 4, before);
    }
    Some(image)
}

fn wide_flag(random: &mut Random, made: &Made) -> Option<Vec<u8>> {
    let id = pick(random, &(0..made.strings.len()).collect::<Vec<_>>())?;
    let at = made.small + 4 * id;
    with_word(made, at, word(&made.image, at) ^ 1)
}

fn narrow_byte(random: &mut Random, made: &Made) -> Option<Vec<u8>> {
    let narrow: Vec<_> =
        made.strings.iter().filter(|text| !text.wide && text.count > 0).copied().collect();
    let text = pick(random, &narrow)?;
    let last = text.count - 1;
    let place = random.pick(&[0, last, last / 2]);
    let mut image = made.image.clone();
    image[made.storage + text.offset + place] = random.pick(&[0x7f, 0x80, 0x80, 0xff]);
    Some(image)
}

fn storage_byte(random: &mut Random, made: &Made) -> Option<Vec<u8>> {
    let place = random.within(made.storage..made.tail.max(made.storage + 1));
    let mut image = made.image.clone();
    *image.get_mut(place)? |= 0x80;
    Some(image)
}

// ---- 6 function.

fn any_function(random: &mut Random, made: &Made) -> Option<usize> {
    pick(random, &(0..made.functions.len()).collect::<Vec<_>>())
}

fn large_ids(made: &Made) -> Vec<usize> {
    (0..made.functions.len()).filter(|id| made.functions[*id].header.is_some()).collect()
}

fn record_of(made: &Made, id: usize) -> u128 {
    let size = made.layout.record();
    number(&made.image, HEADER + id * size, size)
}

fn with_record(made: &Made, id: usize, record: u128) -> Vec<u8> {
    let mut image = made.image.clone();
    put_record(made.layout, &mut image, id, record);
    image
}

/// The image with another body for a function, in its record or its large header.
fn with_body(made: &Made, id: usize, start: usize, size: usize) -> Option<Vec<u8>> {
    let layout = made.layout;
    let Some(header) = made.functions[id].header else {
        let record = record::OFFSET.set(record_of(made, id), start as u64);
        return Some(with_record(made, id, layout.size().set(record, size as u64)));
    };
    let mut image = made.image.clone();
    set_word(&mut image, header, start as u32);
    set_word(&mut image, header + layout.large_size(), size as u32);
    Some(image)
}

fn body_at_tail(random: &mut Random, made: &Made) -> Option<Vec<u8>> {
    let id = any_function(random, made)?;
    let start = random.pick(&[made.tail - 4, made.tail - 1, made.tail - 1, made.tail]);
    with_body(made, id, start, random.pick(&[0, 0, 1]))
}

fn body_at_footer(random: &mut Random, made: &Made) -> Option<Vec<u8>> {
    let id = any_function(random, made)?;
    let footer = made.footer();
    let (start, size) = random.pick(&[
        (footer, 0),
        (footer, 1),
        (footer + 1, 0),
        (footer.max(1) - 1, 1),
        (footer.max(1) - 1, 2),
        (made.tail, footer - made.tail + 1),
        (footer + FOOTER, 0),
    ]);
    with_body(made, id, start, size)
}

fn body_at_zero(random: &mut Random, made: &Made) -> Option<Vec<u8>> {
    let id = any_function(random, made)?;
    with_body(made, id, 0, random.pick(&[0, 0, 4]))
}

/// A size such that the body's end is right modulo 2^32.
fn body_that_wraps(random: &mut Random, made: &Made) -> Option<Vec<u8>> {
    let id = pick(random, &large_ids(made))?;
    let start = made.functions[id].body;
    let end = random.within(made.tail..start + 1);
    with_body(made, id, start, (1usize << 32) - (start - end).max(1))
}

/// A body that holds the first or the last byte of a large header's words, or just does not.
fn body_on_header(random: &mut Random, made: &Made) -> Option<Vec<u8>> {
    let id = any_function(random, made)?;
    let other = pick(random, &large_ids(made))?;
    let header = made.functions[other].header?;
    let end = header + made.layout.large();
    let before = (header - made.tail).min(random.within(0..5));
    let (start, size) = random.pick(&[
        (header - before, before),
        (header - before, before + 1),
        (header, 1),
        (end - 1, 1),
        (end - 1, 2),
        (end, 0),
        (end, 1),
        (header, end - header),
    ]);
    with_body(made, id, start, size)
}

fn empty_body_on_header(random: &mut Random, made: &Made) -> Option<Vec<u8>> {
    let id = any_function(random, made)?;
    let other = pick(random, &large_ids(made))?;
    let header = made.functions[other].header?;
    with_body(made, id, header + random.within(0..made.layout.large()), 0)
}

/// Places at both ends of the tail.
fn edge(random: &mut Random, made: &Made) -> usize {
    let footer = made.footer();
    random.pick(&[0, 1, made.tail - 1, made.tail, footer, footer, footer + 1, footer + 20])
}

fn info(random: &mut Random, made: &Made) -> Option<Vec<u8>> {
    let field = made.layout.info()?;
    let id = any_function(random, made)?;
    let place = edge(random, made);
    match made.functions[id].header {
        Some(header) => with_word(made, header + made.layout.large_info()?, place as u32),
        None => Some(with_record(made, id, field.set(record_of(made, id), place as u64))),
    }
}

fn debug(random: &mut Random, made: &Made) -> Option<Vec<u8>> {
    let place = if random.one_in(8) { u32::MAX } else { edge(random, made) as u32 };
    with_word(made, made.layout.debug(), place)
}

/// The image with the words of a large header at another place too, and its record pointing there.
fn with_header_at(made: &Made, id: usize, place: usize) -> Option<Vec<u8>> {
    let header = made.functions[id].header?;
    let words = made.image[header..header + made.layout.large()].to_vec();
    let record = set_pointer(made.layout.pointer(), record_of(made, id), place as u64);
    let mut image = with_record(made, id, record);
    for (i, byte) in words.into_iter().enumerate() {
        *image.get_mut(place + i)? = byte;
    }
    Some(image)
}

/// Words just before the tail or at its start, over the padding and the last bytes of storage; or in the
/// file header, over version and source hash.
fn pointer_at_tail(random: &mut Random, made: &Made) -> Option<Vec<u8>> {
    let first = large_ids(made).into_iter().min_by_key(|id| made.functions[*id].header)?;
    let near = made.tail - random.within(0..5);
    let place = if random.one_in(2) { near } else { random.within(8..13) };
    with_header_at(made, first, place)
}

fn pointer_at_footer(random: &mut Random, made: &Made) -> Option<Vec<u8>> {
    let id = pick(random, &large_ids(made))?;
    with_header_at(made, id, made.footer() - made.layout.large() + random.within(0..5))
}

fn pointer_over_32_bits(random: &mut Random, made: &Made) -> Option<Vec<u8>> {
    let id = pick(random, &large_ids(made))?;
    let more = 1 << random.within(24..41);
    let pointer = made.functions[id].header? as u64 + more;
    Some(with_record(made, id, set_pointer(made.layout.pointer(), record_of(made, id), pointer)))
}

/// Bits of the offset field that are no part of a large pointer.
fn bits_beside_pointer(random: &mut Random, made: &Made) -> Option<Vec<u8>> {
    let id = pick(random, &large_ids(made))?;
    let bit = if made.layout.is_modern() { 24 } else { random.within(16..25) };
    Some(with_record(made, id, record_of(made, id) ^ 1 << bit))
}

fn header_twice(random: &mut Random, made: &Made) -> Option<Vec<u8>> {
    let (id, other) = (pick(random, &large_ids(made))?, pick(random, &large_ids(made))?);
    let place = made.functions[other].header? as u64;
    Some(with_record(made, id, set_pointer(made.layout.pointer(), record_of(made, id), place)))
}

/// Two large headers whose words interleave, so that each still reads as it did.
fn headers_that_touch(random: &mut Random, made: &Made) -> Option<Vec<u8>> {
    let large = large_ids(made);
    let (id, other) = (pick(random, &large)?, pick(random, &large)?);
    if id == other {
        return None;
    }
    let (from, to) = (made.functions[id].header?, made.functions[other].header? + 4);
    let record = set_pointer(made.layout.pointer(), record_of(made, id), to as u64);
    let mut image = with_record(made, id, record);
    let places = [Some(0), Some(made.layout.large_size()), made.layout.large_info()];
    for place in places.into_iter().flatten() {
        let value = word(&made.image, from + place);
        let bytes = image.get_mut(to + place..to + place + 4)?;
        bytes.copy_from_slice(&value.to_le_bytes());
    }
    Some(image)
}
