//! The smallest inputs that show what docs/DIFFERENCES.md lists of the patches, each by its name there.

use super::judgement::{judge, Departure, Judgement};
use super::{Kind, Patch};
use crate::image::layout::*;
use crate::job::packing::Mode;
use crate::leaves::record::{self, set_pointer};
use crate::stream::Call;

/// An image with nothing in it but what is stated; all other bytes are 0.
#[derive(Clone, Default)]
pub struct Bare {
    pub layout: u8,
    /// Wide, identifier, offset in storage, count.
    pub strings: Vec<(bool, bool, usize, usize)>,
    pub storage: Vec<u8>,
    /// The strings with an overflow pair that their count does not ask for.
    pub needless: Vec<usize>,
    /// The kind words, where it is not one for each string.
    pub kinds: Option<Vec<u32>>,
    /// The first hash slots.
    pub hashes: Vec<u32>,
    pub functions: Vec<Places>,
    /// The bytes between the start of the tail and the footer.
    pub tail: usize,
    pub debug: Option<usize>,
}

/// The places of a function, counted from the tail.
#[derive(Clone, Copy, Default)]
pub struct Places {
    pub header: Option<usize>,
    pub body: usize,
    pub size: usize,
    pub info: Option<usize>,
}

impl Bare {
    pub fn image(&self) -> Vec<u8> {
        let layout = Layout(self.layout);
        let identifiers = self.strings.iter().filter(|string| string.1).count();
        let kinds = self.kinds.clone().unwrap_or_else(|| self.single_kinds());
        let kinds_at = HEADER + layout.record() * self.functions.len();
        let hashes = kinds_at + 4 * kinds.len();
        let small = hashes + 4 * identifiers;
        let overflows = |i: usize| self.strings[i].3 >= 255 || self.needless.contains(&i);
        let pairs = (0..self.strings.len()).filter(|i| overflows(*i)).count();
        let overflow = small + 4 * self.strings.len();
        let storage = overflow + 8 * pairs;
        let tail = (storage + self.storage.len()).next_multiple_of(4);
        let mut image = vec![0; tail + self.tail + FOOTER];
        image[..8].copy_from_slice(&MAGIC.to_le_bytes());
        let count = self.strings.len();
        let counts =
            [self.functions.len(), kinds.len(), identifiers, count, pairs, self.storage.len()];
        let words = counts.map(|count| count as u32);
        for (at, words) in [(FUNCTIONS, &words[..]), (kinds_at, &kinds), (hashes, &self.hashes)] {
            for (i, word) in words.iter().enumerate() {
                set_word(&mut image, at + 4 * i, *word);
            }
        }
        let mut pair = 0;
        for (i, (wide, _, offset, count)) in self.strings.iter().copied().enumerate() {
            let (mut field, mut length) = (offset, count);
            if overflows(i) {
                set_word(&mut image, overflow + 8 * pair, offset as u32);
                set_word(&mut image, overflow + 8 * pair + 4, count as u32);
                (field, length) = (pair, 255);
                pair += 1;
            }
            set_word(
                &mut image,
                small + 4 * i,
                (length << 24 | field << 1 | usize::from(wide)) as u32,
            );
        }
        image[storage..storage + self.storage.len()].copy_from_slice(&self.storage);
        for (id, function) in self.functions.iter().enumerate() {
            put(&mut image, layout, tail, id, function);
        }
        set_word(&mut image, layout.debug(), self.debug.map_or(0, |place| tail + place) as u32);
        image
    }

    fn single_kinds(&self) -> Vec<u32> {
        let flag = |identifier: bool| if identifier { IDENTIFIER } else { 0 };
        self.strings.iter().map(|string| flag(string.1) | 1).collect()
    }
}

fn put(image: &mut [u8], layout: Layout, tail: usize, id: usize, function: &Places) {
    let info = function.info.map_or(0, |place| tail + place) as u32;
    let (body, size) = (tail + function.body, function.size);
    let mut number = 0;
    if let Some(header) = function.header.map(|header| tail + header) {
        number = layout.flags().set(number, LARGE_FLAG);
        number = set_pointer(layout.pointer(), number, header as u64);
        set_word(image, header, body as u32);
        set_word(image, header + layout.large_size(), size as u32);
        if let Some(place) = layout.large_info() {
            set_word(image, header + place, info);
        }
    } else {
        number = record::OFFSET.set(number, body as u64);
        number = layout.size().set(number, size as u64);
        number = layout.info().map_or(number, |field| field.set(number, info.into()));
    }
    crate::image::maker::put_record(layout, image, id, number);
}

/// A call by its name, and the departure that it shows, if any.
pub struct Shown {
    pub name: &'static str,
    pub departure: Option<Departure>,
    kind: Kind,
    layout: u8,
    image: Vec<u8>,
    old: Vec<u8>,
    new: Vec<u8>,
}

impl Shown {
    fn new(
        name: &'static str,
        departure: Departure,
        kind: Kind,
        image: &Bare,
        new: &[u8],
    ) -> Shown {
        let (layout, image) = (image.layout, image.image());
        Shown {
            name,
            departure: Some(departure),
            kind,
            layout,
            image,
            old: vec![],
            new: new.to_vec(),
        }
    }

    /// String or function 0 is patched.
    fn patch(&self) -> Patch<'_> {
        let (kind, old, new, image) = (self.kind, &self.old, &self.new, &self.image);
        // Enough for every one that is accepted; what is huge is refused before 13.
        let room = if image.len() > 60_000 { 0 } else { image.len() + 64 };
        let (mode, layout) = (Mode::Plain, Layout(self.layout));
        Patch { kind, mode, layout, id: 0, old, new, image, room }
    }

    pub fn call(&self) -> Option<Call> {
        let patch = self.patch();
        patch.call(vec![0x5c; patch.room])
    }

    pub fn judged(&self) -> Judgement {
        judge(&self.patch())
    }
}

fn narrow(text: &str) -> Bare {
    let strings = vec![(false, false, 0, text.len())];
    Bare { strings, storage: text.into(), ..Bare::default() }
}

fn functions(layout: u8, functions: &[Places], tail: usize) -> Bare {
    Bare { layout, functions: functions.to_vec(), tail, ..Bare::default() }
}

fn body(body: usize, size: usize) -> Places {
    Places { body, size, ..Places::default() }
}

pub fn shown() -> Vec<Shown> {
    use Departure::*;
    let mut all = vec![
        // The label that showed stray letters: five bytes either way.
        Shown::new(
            "accented label in place",
            AccentedInPlace,
            Kind::ById,
            &narrow("Cafe!"),
            "Café".as_bytes(),
        ),
        Shown::new("accented in place", AccentedInPlace, Kind::ById, &narrow("ab"), "é".as_bytes()),
    ];
    let mut wide = narrow("ab");
    wide.strings.push((true, false, 0, 1));
    all.push(Shown::new("wide entry overlapped", WideOverlapIgnored, Kind::ById, &wide, b"cd"));
    let lone =
        Bare { strings: vec![(true, false, 0, 1)], storage: vec![0x00, 0xd8], ..Bare::default() };
    let mut decoded =
        Shown::new("decoded text compared", DecodedTextCompared, Kind::ByValue, &lone, b"");
    decoded.old = "\u{fffd}".into();
    all.push(decoded);
    all.extend(bodies());
    all.extend(huge());
    all
}

fn bodies() -> Vec<Shown> {
    use Departure::*;
    let info = Places { info: Some(0), ..body(0, 1) };
    let header = Places { header: Some(0), ..body(2, 0) };
    let with_debug = |layout: u8, of: &[Places], tail: usize, debug: usize| Bare {
        debug: Some(debug),
        ..functions(layout, of, tail)
    };
    let show = |name, departure, image: &Bare, new: &[u8]| {
        Shown::new(name, departure, Kind::Body, image, new)
    };
    vec![
        show("shared body", SharedBodyEdited, &functions(0, &[body(0, 1), body(0, 1)], 1), b"a"),
        show(
            "shared body resized",
            SharedBodyEdited,
            &functions(0, &[body(0, 1), body(0, 1)], 1),
            b"",
        ),
        show(
            "empty body inside",
            EmptyBodyInside,
            &functions(0, &[body(0, 2), body(1, 0)], 2),
            b"ab",
        ),
        show("info inside", InfoInside, &functions(1, &[info], 1), b"a"),
        show(
            "debug before the end, equal length",
            DebugBefore,
            &with_debug(0, &[body(0, 1)], 1, 0),
            b"a",
        ),
        show("debug before the start moved", DebugBefore, &with_debug(0, &[body(1, 1)], 2, 0), b""),
        show("empty body grown", EmptyBodyGrown, &functions(0, &[body(0, 0)], 0), b"a"),
        show(
            "empty body grown inside large-header words",
            EmptyBodyGrown,
            &functions(0, &[header], 16),
            b"a",
        ),
        show("size masked, modern", FieldMasked, &functions(0, &[body(0, 1)], 1), &[0; 16_384]),
        show("size masked, legacy", FieldMasked, &functions(1, &[body(0, 1)], 1), &[0; 32_768]),
    ]
}

/// Strings that share one storage, so that a rebuild is far longer than the image: over the limit of an
/// image, or with bodies past 33,554,431.
fn huge() -> Vec<Shown> {
    use Departure::*;
    let shared = |strings: usize, size: usize| Bare {
        strings: vec![(false, false, 0, size); strings],
        storage: vec![b'a'; size],
        functions: vec![body(0, 0)],
        ..Bare::default()
    };
    vec![
        Shown::new("result over the limit", NoSizeLimit, Kind::ById, &shared(2_400, 28_000), b""),
        Shown::new("body offset masked", FieldMasked, Kind::ById, &shared(1_300, 26_000), b""),
    ]
}
