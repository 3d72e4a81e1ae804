//! Makes valid images at random, in any of the five layouts, and says what is in them. A judge of patches
//! can choose among their strings and functions, and set the version that the Rust derives the layout from.

use hbc_decomp::write::footer::rehash_footer;

use super::layout::*;
use crate::leaves::record::{self, set_pointer};
use crate::random::Random;

/// How large an image is to be: bounds of what is drawn.
#[derive(Clone, Copy)]
pub struct Shape {
    pub strings: usize,
    pub string_length: usize,
    /// One in so many strings is wide.
    pub wide: u64,
    pub functions: usize,
    pub body: usize,
    /// What strings say that share no bytes with one before, where it is not any bytes.
    pub word: Option<fn(&mut Random) -> Vec<u16>>,
}

pub const SMALL: Shape =
    Shape { strings: 6, string_length: 8, wide: 3, functions: 4, body: 12, word: None };
pub const MIDDLE: Shape =
    Shape { strings: 40, string_length: 30, functions: 20, body: 80, ..SMALL };
pub const LARGE: Shape =
    Shape { strings: 400, string_length: 50, functions: 100, body: 300, ..SMALL };
/// Many wide strings among narrow ones, so that a rebuild puts many at odd places.
pub const ODD: Shape = Shape { strings: 20, string_length: 3, wide: 2, ..SMALL };
/// About as long as a call can carry.
pub const HUGE: Shape =
    Shape { strings: 3000, string_length: 20, functions: 700, body: 60, ..SMALL };

/// An image, and what was put into it.
pub struct Made {
    pub layout: Layout,
    pub image: Vec<u8>,
    pub strings: Vec<Text>,
    pub functions: Vec<Function>,
    pub small: usize,
    pub overflow: usize,
    pub storage: usize,
    pub tail: usize,
}

/// A string. Its count is of bytes or, if it is wide, of pairs of bytes.
#[derive(Clone, Copy)]
pub struct Text {
    pub wide: bool,
    pub identifier: bool,
    /// It has an overflow pair, needed or not.
    pub overflows: bool,
    pub offset: usize,
    pub count: usize,
}

/// A function. Its places are those of the image.
#[derive(Clone, Copy)]
pub struct Function {
    /// The place of its large header, if it has one.
    pub header: Option<usize>,
    pub body: usize,
    pub size: usize,
    /// 0 for none.
    pub info: usize,
}

impl Text {
    pub fn size(&self) -> usize {
        self.count * if self.wide { 2 } else { 1 }
    }
}

impl Made {
    pub fn footer(&self) -> usize {
        self.image.len() - FOOTER
    }
}

pub fn make(random: &mut Random, layout: Layout, shape: Shape) -> Made {
    let (strings, storage_bytes) = texts(random, shape);
    let kinds = kinds(random, &strings);
    let identifiers = strings.iter().filter(|text| text.identifier).count();
    let overflows = strings.iter().filter(|text| text.overflows).count();
    let function_count = random.within(0..shape.functions + 1);

    let hashes = HEADER + function_count * layout.record() + 4 * kinds.len();
    let small = hashes + 4 * identifiers;
    let overflow = small + 4 * strings.len();
    let storage = overflow + 8 * overflows;
    let tail = (storage + storage_bytes.len()).next_multiple_of(4);

    // Every byte that is not written below may be anything.
    let mut image = random.bytes(tail);
    image[..8].copy_from_slice(&MAGIC.to_le_bytes());
    let kinds_at = hashes - 4 * kinds.len();
    let counts =
        [function_count, kinds.len(), identifiers, strings.len(), overflows, storage_bytes.len()];
    let words = counts.map(|count| count as u32);
    write_words(&mut image, FUNCTIONS, &words);
    write_words(&mut image, kinds_at, &kinds);
    write_words(&mut image, small, &small_words(&strings));
    write_words(&mut image, overflow, &overflow_words(&strings));
    image[storage..storage + storage_bytes.len()].copy_from_slice(&storage_bytes);

    let (functions, tail_bytes) = functions(random, layout, shape, function_count, tail);
    image.extend(tail_bytes);
    image.extend(random.bytes(FOOTER));
    for (id, function) in functions.iter().enumerate() {
        put_function(random, layout, &mut image, id, function);
    }
    let debug = place(random, tail, image.len() - FOOTER);
    set_word(&mut image, layout.debug(), debug as u32);
    finish(random, &mut image);
    Made { layout, image, strings, functions, small, overflow, storage, tail }
}

/// File length and footer, right or stale.
fn finish(random: &mut Random, image: &mut Vec<u8>) {
    let length = image.len() as u32;
    if random.one_in(2) {
        set_word(image, FILE_LENGTH, length);
        rehash_footer(image).unwrap();
    } else {
        let stale = [0, length - 1, length + 1, length / 2, random.next() as u32];
        set_word(image, FILE_LENGTH, random.pick(&stale));
    }
}

fn write_words(image: &mut [u8], at: usize, words: &[u32]) {
    words.iter().enumerate().for_each(|(i, word)| set_word(image, at + 4 * i, *word));
}

/// 0, or a place in the tail, which has no width.
fn place(random: &mut Random, tail: usize, footer: usize) -> usize {
    match random.below(4) {
        0 => 0,
        1 => random.pick(&[tail, footer]),
        _ => random.within(tail..footer + 1),
    }
}

// ---- Strings.

/// Strings, and storage that holds them: each in bytes of its own, or sharing all or some bytes with those
/// before it, with bytes in between that no string covers.
fn texts(random: &mut Random, shape: Shape) -> (Vec<Text>, Vec<u8>) {
    let mut storage: Vec<u8> = vec![];
    let mut strings: Vec<Text> = vec![];
    let mut identifier = random.one_in(2);
    for _ in 0..random.within(0..shape.strings + 1) {
        if random.one_in(3) {
            identifier = !identifier;
        }
        let (wide, offset, count) = match random.below(8) {
            0 => within_another(random, &strings).unwrap_or((false, 0, 0)),
            1 if storage.len() > 1 => {
                // Any bytes are a wide string, at odd places too.
                let start = random.within(0..storage.len());
                (true, start, random.within(0..(storage.len() - start) / 2 + 1).min(200))
            }
            2 => (random.one_in(2), random.within(0..storage.len() + 1), 0),
            _ => fresh(random, shape, &mut storage),
        };
        let overflows = count >= 255 || random.one_in(8);
        strings.push(Text { wide, identifier, overflows, offset, count });
    }
    (strings, storage)
}

/// A part, or all, of a string before.
fn within_another(random: &mut Random, strings: &[Text]) -> Option<(bool, usize, usize)> {
    if strings.is_empty() {
        return None;
    }
    let other = random.pick(strings);
    let skipped = if random.one_in(2) { 0 } else { random.within(0..other.count + 1) };
    let left = other.count - skipped;
    let count = if random.one_in(2) { left } else { random.within(0..left + 1) };
    let unit = if other.wide { 2 } else { 1 };
    Some((other.wide, other.offset + skipped * unit, count))
}

/// A string at the end of storage.
fn fresh(random: &mut Random, shape: Shape, storage: &mut Vec<u8>) -> (bool, usize, usize) {
    if random.one_in(6) {
        let gap = random.within(1..4);
        storage.extend(random.bytes(gap));
    }
    if let Some(word) = shape.word {
        let units = word(random);
        return said(random, shape, &units, storage);
    }
    let wide = random.one_in(shape.wide);
    let count = match random.below(32) {
        0 => random.within(253..258),
        1 => 254,
        2 => 255,
        3..7 => 0,
        _ => random.within(0..shape.string_length + 1),
    };
    let offset = storage.len();
    let bytes = random.bytes(if wide { 2 * count } else { count });
    storage.extend(bytes.iter().map(|byte| if wide { *byte } else { byte & 0x7f }));
    (wide, offset, count)
}

/// These units at the end of storage: wide where they have to be, and at times besides.
fn said(
    random: &mut Random,
    shape: Shape,
    units: &[u16],
    storage: &mut Vec<u8>,
) -> (bool, usize, usize) {
    let wide = units.iter().any(|unit| *unit > 0x7f) || random.one_in(shape.wide);
    let offset = storage.len();
    storage.extend(
        units.iter().flat_map(|unit| unit.to_le_bytes().into_iter().take(1 + usize::from(wide))),
    );
    (wide, offset, units.len())
}

/// Runs that cover the strings in order, some of them split or of count 0.
fn kinds(random: &mut Random, strings: &[Text]) -> Vec<u32> {
    let mut kinds: Vec<u32> = vec![];
    for text in strings {
        let flag = if text.identifier { IDENTIFIER } else { 0 };
        match kinds.last_mut() {
            Some(kind) if *kind & IDENTIFIER == flag && !random.one_in(6) => *kind += 1,
            _ => kinds.push(flag | 1),
        }
    }
    for _ in 0..random.below(3) {
        let place = random.within(0..kinds.len() + 1);
        let empty = if random.one_in(2) { IDENTIFIER } else { 0 };
        kinds.insert(place, empty);
    }
    kinds
}

fn small_words(strings: &[Text]) -> Vec<u32> {
    let mut overflows = 0;
    let mut word = |text: &Text| {
        let (offset, length) =
            if text.overflows { (overflows, 255) } else { (text.offset as u32, text.count as u32) };
        overflows += u32::from(text.overflows);
        length << 24 | offset << 1 | u32::from(text.wide)
    };
    strings.iter().map(&mut word).collect()
}

fn overflow_words(strings: &[Text]) -> Vec<u32> {
    let overflows = strings.iter().filter(|text| text.overflows);
    overflows.flat_map(|text| [text.offset as u32, text.count as u32]).collect()
}

// ---- Functions.

/// A piece of the tail.
enum Piece {
    Body(usize),
    Header(usize),
    Gap,
}

/// Functions, and the bytes of the tail: bodies, the words of large headers and gaps, none sharing a byte,
/// either as compilers lay them (bodies, then headers in order) or in any order. Some bodies are those of
/// others or lie within them, and some are empty and lie anywhere.
fn functions(
    random: &mut Random,
    layout: Layout,
    shape: Shape,
    count: usize,
    tail: usize,
) -> (Vec<Function>, Vec<u8>) {
    let none = Function { header: None, body: 0, size: 0, info: 0 };
    let mut functions = vec![none; count];
    let all_large = random.one_in(2);
    let large: Vec<bool> = (0..count).map(|_| all_large || random.one_in(2)).collect();
    let own: Vec<bool> = (0..count).map(|i| i == 0 || !random.one_in(4)).collect();

    let bodies = (0..count).filter(|i| own[*i]).map(Piece::Body);
    let headers = (0..count).filter(|i| large[*i]).map(Piece::Header);
    let mut pieces: Vec<Piece> = bodies.chain(headers).collect();
    if random.one_in(2) {
        for _ in 0..random.below(4) {
            pieces.push(Piece::Gap);
        }
        for i in (1..pieces.len()).rev() {
            pieces.swap(i, random.within(0..i + 1));
        }
    }
    let mut bytes = vec![];
    for piece in pieces {
        let at = tail + bytes.len();
        let length = match piece {
            Piece::Body(i) => {
                functions[i].body = at;
                functions[i].size =
                    if random.one_in(8) { 0 } else { random.within(1..shape.body + 1) };
                functions[i].size
            }
            Piece::Header(i) => {
                functions[i].header = Some(at);
                layout.large() + if random.one_in(2) { random.within(0..24) } else { 0 }
            }
            Piece::Gap => random.within(1..8),
        };
        bytes.extend(random.bytes(length));
    }
    let footer = tail + bytes.len();
    for i in 0..count {
        if !own[i] {
            (functions[i].body, functions[i].size) =
                borrowed(random, &functions[..i], tail, footer);
        }
        if layout.info().is_some() {
            functions[i].info = place(random, tail, footer);
        }
    }
    (functions, bytes)
}

/// A body that is all or a part of one before, or empty and anywhere.
fn borrowed(
    random: &mut Random,
    before: &[Function],
    tail: usize,
    footer: usize,
) -> (usize, usize) {
    let other = random.pick(before);
    match random.below(3) {
        0 => (random.within(tail..footer + 1), 0),
        1 => (other.body, other.size),
        _ => {
            let skipped = random.within(0..other.size + 1);
            (other.body + skipped, random.within(0..other.size - skipped + 1))
        }
    }
}

/// The record of a function and the words of its large header; all other bits are anything.
pub fn put_function(
    random: &mut Random,
    layout: Layout,
    image: &mut [u8],
    id: usize,
    f: &Function,
) {
    let mut number = u128::from(random.next()) << 64 | u128::from(random.next());
    let flags = random.below(256) & !LARGE_FLAG;
    if let Some(header) = f.header {
        number = layout.flags().set(number, flags | LARGE_FLAG);
        number = set_pointer(layout.pointer(), number, header as u64);
        set_word(image, header, f.body as u32);
        set_word(image, header + layout.large_size(), f.size as u32);
        if let Some(info) = layout.large_info() {
            set_word(image, header + info, f.info as u32);
        }
    } else {
        number = layout.flags().set(number, flags);
        number = record::OFFSET.set(number, f.body as u64);
        number = layout.size().set(number, f.size as u64);
        if let Some(info) = layout.info() {
            number = info.set(number, f.info as u64);
        }
    }
    put_record(layout, image, id, number);
}

pub fn put_record(layout: Layout, image: &mut [u8], id: usize, number: u128) {
    let size = layout.record();
    let at = HEADER + id * size;
    image[at..at + size].copy_from_slice(&number.to_le_bytes()[..size]);
}
