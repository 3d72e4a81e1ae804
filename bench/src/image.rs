//! Images laid out as compilers lay them out: all bodies, then the large headers in order of the ids.

/// How an image of a layout is laid out.
pub struct Shape {
    pub layout: u8,
    record: usize,
    large: usize,
    is_large: fn(usize) -> bool,
    overflows: fn(usize) -> bool,
    is_identifier: fn(usize) -> bool,
    is_odd: bool,
    is_shared: bool,
    says: Says,
}

/// What strings say.
#[derive(Clone, Copy, PartialEq)]
enum Says {
    /// Letters that come again after some two hundred strings.
    Letters,
    /// What no other says.
    OfItsOwn,
    /// All the same.
    TheSame,
}

const MODERN: Shape = Shape {
    layout: 0,
    record: 12,
    large: 40,
    is_large: |_| true,
    overflows: |_| false,
    is_identifier: |_| false,
    is_odd: false,
    is_shared: false,
    says: Says::Letters,
};
const MIXED: Shape = Shape { layout: 1, record: 16, large: 32, is_large: |i| i % 2 == 0, ..MODERN };
/// Every fourth string has its place in the overflow table.
const PAIRS: Shape = Shape { overflows: |i| i % 4 == 3, ..MIXED };
/// Identifiers and plain strings by twos: a kind for every two strings, as no compiler has so many.
const NAMES: Shape = Shape { is_identifier: |i| i % 4 < 2, ..MIXED };
/// Every second string is wide, behind a narrow one of odd length: in even mode it needs a gap.
const ODD: Shape = Shape { is_odd: true, ..MIXED };
/// The last string is the first one once more, at its place; no other two share a byte.
const SHARED: Shape = Shape { is_shared: true, ..MIXED };

/// As images with labels are: no two strings say the same.
const TEXTS: Shape = Shape { says: Says::OfItsOwn, ..MIXED };
/// All strings say the same, each at its own place.
const ALIKE: Shape = Shape { says: Says::TheSame, ..MIXED };

/// The shape of a name.
pub fn shape(name: &str) -> Shape {
    match name {
        "modern" => MODERN,
        // They differ in how long bodies are, which is the caller's.
        "mixed" | "bodies" => MIXED,
        "pairs" => PAIRS,
        "names" => NAMES,
        "odd" => ODD,
        "shared" => SHARED,
        // As with mixed and bodies.
        "texts" | "books" => TEXTS,
        "alike" => ALIKE,
        _ => panic!("{name}: not the name of a shape"),
    }
}

fn put(image: &mut [u8], at: usize, word: usize) {
    image[at..at + 4].copy_from_slice(&(word as u32).to_le_bytes());
}

/// Of string i whether it is wide, and its bytes: one in eight or in two is wide, all have 4 to 19 bytes.
fn string(shape: &Shape, i: usize) -> (bool, Vec<u8>) {
    let i = if shape.says == Says::TheSame { 6 } else { i };
    let wide = if shape.is_odd { i % 2 == 1 } else { i % 8 == 7 };
    let length = (4 + i * 7 % 16) / 2 * 2 + usize::from(shape.is_odd && !wide);
    let letter = |j: usize| match shape.says {
        // The first four are the number of the string.
        Says::OfItsOwn if j < 4 => i / 26usize.pow(j as u32),
        _ => i + j,
    };
    (wide, (0..length).map(|j| b'a' + (letter(j) % 26) as u8).collect())
}

/// The kind words: a run of identifiers or of plain strings each, one for all strings where they are alike.
fn kinds(shape: &Shape, strings: usize) -> Vec<usize> {
    let flags: Vec<bool> = (0..strings).map(shape.is_identifier).collect();
    let runs = flags.chunk_by(|one, next| one == next);
    runs.map(|run| usize::from(run[0]) << 31 | run.len()).collect()
}

/// The header, the records, the kinds, the hash slots (which hold their numbers), the small table, the overflow table, storage,
/// padding.
fn sections(shape: &Shape, functions: usize, strings: usize) -> Vec<u8> {
    let kinds_at = 128 + functions * shape.record;
    let kinds = kinds(shape, strings);
    let identifiers = (0..strings).filter(|i| (shape.is_identifier)(*i)).count();
    let hashes = kinds_at + 4 * kinds.len();
    let small = hashes + 4 * identifiers;
    let pairs = small + 4 * strings;
    let overflows = (0..strings).filter(|i| (shape.overflows)(*i)).count();
    let storage = pairs + 8 * overflows;
    let mut image = vec![0; storage];
    image[..8].copy_from_slice(&0x1F19_03C1_03BC_1FC6u64.to_le_bytes());
    for (k, word) in kinds.iter().enumerate() {
        put(&mut image, kinds_at + 4 * k, *word);
    }
    for rank in 0..identifiers {
        put(&mut image, hashes + 4 * rank, rank);
    }
    let mut next = 0;
    for i in 0..strings {
        let is_first_again = shape.is_shared && i + 1 == strings;
        let (wide, bytes) = string(shape, if is_first_again { 0 } else { i });
        let mut length = if wide { bytes.len() / 2 } else { bytes.len() };
        let mut offset = if is_first_again { 0 } else { image.len() - storage };
        if (shape.overflows)(i) {
            put(&mut image, pairs + 8 * next, offset);
            put(&mut image, pairs + 8 * next + 4, length);
            (offset, length) = (next, 255);
            next += 1;
        }
        put(&mut image, small + 4 * i, length << 24 | offset << 1 | usize::from(wide));
        if !is_first_again {
            image.extend(bytes);
        }
    }
    let size = image.len() - storage;
    let counts = [functions, kinds.len(), identifiers, strings, overflows, size];
    for (k, count) in counts.into_iter().enumerate() {
        put(&mut image, 40 + 4 * k, count);
    }
    image.resize(image.len().next_multiple_of(4), 0);
    image
}

/// The bits of a record: a pointer to its large header, or the place and size of its body.
fn record(shape: &Shape, header: Option<usize>, body: usize, size: usize) -> u128 {
    let modern = shape.layout == 0;
    match header {
        Some(at) if modern => (at % (1 << 24) | at >> 24 << 46) as u128 | 0x20 << 88,
        Some(at) => (at % (1 << 16)) as u128 | ((at >> 16) as u128) << 64 | 0x20 << 120,
        None => (body | size << 32) as u128,
    }
}

/// Bodies have 8 to 31 bytes, and as many more as stated.
pub fn image(shape: &Shape, functions: usize, strings: usize, more: usize) -> Vec<u8> {
    let mut image = sections(shape, functions, strings);
    let size = |i: usize| more + 8 + i * 5 % 24;
    let bodies: Vec<usize> = (0..functions)
        .map(|i| {
            let at = image.len();
            image.resize(at + size(i), 0x5c);
            at
        })
        .collect();
    image.resize(image.len().next_multiple_of(4), 0);
    for i in 0..functions {
        let header = (shape.is_large)(i).then_some(image.len());
        if let Some(at) = header {
            image.resize(at + shape.large, 0);
            put(&mut image, at, bodies[i]);
            put(&mut image, at + if shape.layout == 0 { 12 } else { 8 }, size(i));
        }
        let bits = record(shape, header, bodies[i], size(i)).to_le_bytes();
        let slot = 128 + i * shape.record;
        image[slot..slot + shape.record].copy_from_slice(&bits[..shape.record]);
    }
    image.resize(image.len() + 20, 0);
    image
}
