//! A second reading of document 01, "Refusal numbers" 1 to 6, and of its "Image rules": admission. The
//! Rust has none. It is written for being read, from the paper's sentences: bytes that are shared are
//! found in a map of who holds each byte.

use std::num::NonZeroU32;

use super::layout::*;
use crate::leaves::record::{self, Field};

/// An image and how it is read.
pub struct Reading<'a> {
    pub layout: Layout,
    pub image: &'a [u8],
    /// A mistake made on purpose, so that the calls can be seen to find it.
    pub slip: Option<Slip>,
}

/// Mistakes that a program could make, each against one sentence.
#[derive(Clone, Copy, PartialEq, Debug)]
pub enum Slip {
    /// One test is left out, by its place in `TESTS`.
    Without(usize),
    LengthFromHeader,
    SectionsWrap,
    TailNotRoundedUp,
    EmptyKindsEnd,
    KindsWrap,
    PaddingIsStorage,
    StringEndWraps,
    WideCountsBytes,
    WideBytesJudged,
    InfoZeroJudged,
    DebugZeroJudged,
    DebugOfModern,
    InfoOfLargeRecord,
    PlaceHasWidth,
    BodyEndWraps,
    EmptyBodyAtZero,
    EmptyBodyShares,
    PointerModulo,
    PointerOf25Bits,
    HeaderOfBothLayouts,
    OwnBodyMayShare,
    OnePointerTwice,
    // Of locating a string, document 02, No. 9.
    OwnEntryPassedOver,
    OwnPairOnly,
    PairOfEachEntry,
    AbsentIdLocated,
    // Of its rank, document 02, No. 5.
    RankOfRun,
    RankOfNext,
    PlainStringsCounted,
    PlainStringRanked,
}

/// Every mistake, but for the test of the upper limit: no call holds so long an image.
pub fn slips() -> Vec<Slip> {
    use Slip::*;
    let mut slips: Vec<Slip> = (1..TESTS.len()).map(Without).collect();
    slips.extend([
        LengthFromHeader,
        SectionsWrap,
        TailNotRoundedUp,
        EmptyKindsEnd,
        KindsWrap,
        PaddingIsStorage,
        StringEndWraps,
        WideCountsBytes,
        WideBytesJudged,
        InfoZeroJudged,
        DebugZeroJudged,
        DebugOfModern,
        InfoOfLargeRecord,
        PlaceHasWidth,
        BodyEndWraps,
        EmptyBodyAtZero,
        EmptyBodyShares,
        PointerModulo,
        PointerOf25Bits,
        HeaderOfBothLayouts,
        OwnBodyMayShare,
        OnePointerTwice,
        OwnEntryPassedOver,
        OwnPairOnly,
        PairOfEachEntry,
        AbsentIdLocated,
        RankOfRun,
        RankOfNext,
        PlainStringsCounted,
        PlainStringRanked,
    ]);
    slips
}

/// A sentence of the paper: the number that it gives, and whether it applies.
pub struct Test {
    pub number: u32,
    pub sentence: &'static str,
    broken: fn(&Reading) -> bool,
}

pub const TESTS: [Test; 18] = [
    Test {
        number: 1,
        sentence: "image over 67,108,864 bytes",
        broken: |r| r.length() > 67_108_864,
    },
    Test { number: 1, sentence: "image under 148", broken: |r| r.length() < 148 },
    Test {
        number: 2,
        sentence: "wrong first 8 bytes",
        broken: |r| number(r.image, 0, 8) != u128::from(MAGIC),
    },
    Test {
        number: 3,
        sentence: "tail start past length minus 20",
        broken: |r| r.places().tail + FOOTER as u64 > r.length(),
    },
    Test {
        number: 4,
        sentence: "counts differ from string count",
        broken: |r| r.kinds_sum(|_| true) != u64::from(r.count(STRINGS)),
    },
    Test {
        number: 4,
        sentence: "or identifiers from identifier count",
        broken: |r| r.kinds_sum(|word| word & IDENTIFIER != 0) != u64::from(r.count(IDENTIFIERS)),
    },
    Test {
        number: 5,
        sentence: "overflow entries differ in number from the count",
        broken: |r| {
            let overflows = r.smalls().filter(|small| small.overflows()).count();
            overflows as u64 != u64::from(r.count(OVERFLOWS))
        },
    },
    Test {
        number: 5,
        sentence: "the k-th (from 0) has another offset field than k",
        broken: |r| {
            let overflows = r.smalls().filter(|small| small.overflows());
            overflows.enumerate().any(|(k, small)| small.offset() as usize != k)
        },
    },
    Test {
        number: 5,
        sentence: "a string leaves storage",
        broken: |r| r.strings().iter().any(|string| string.end > r.storage_size()),
    },
    Test {
        number: 5,
        sentence: "or a narrow byte exceeds 0x7F",
        broken: |r| {
            let storage = r.places().storage;
            let place = |at: u64| (storage + at).min(r.image.len() as u64) as usize;
            let judged = |string: &&Stored| !string.wide || r.slips(Slip::WideBytesJudged);
            r.strings().iter().filter(judged).any(|string| {
                let bytes = r.image.get(place(string.start)..place(string.end));
                !bytes.unwrap_or(&[]).is_ascii()
            })
        },
    },
    Test {
        number: 6,
        sentence: "a body (one at 0 too) starts before the tail",
        broken: |r| r.bodies().any(|(start, end)| r.before_tail(start, end)),
    },
    Test {
        number: 6,
        sentence: "a body ends past the footer's start",
        broken: |r| r.bodies().any(|(_, end)| end > r.footer()),
    },
    Test {
        number: 6,
        sentence: "a nonzero info or debug place starts before the tail",
        broken: |r| r.nonzero_places().any(|place| place < r.places().tail),
    },
    Test {
        number: 6,
        sentence: "a nonzero info or debug place ends past the footer's start",
        broken: |r| {
            let width = u64::from(r.slips(Slip::PlaceHasWidth));
            r.nonzero_places().any(|place| place + width > r.footer())
        },
    },
    Test {
        number: 6,
        sentence: "a large header's words start before the tail",
        broken: |r| r.headers().any(|(start, _)| start < r.places().tail),
    },
    Test {
        number: 6,
        sentence: "a large header's words end past the footer's start",
        broken: |r| r.headers().any(|(_, end)| end > r.footer()),
    },
    Test {
        number: 6,
        sentence: "the words of a large header share a byte with those of another record's",
        broken: |r| r.held_by_headers().is_shared,
    },
    Test {
        number: 6,
        sentence: "or with any body",
        broken: |r| {
            let held = r.held_by_headers().by;
            r.functions().any(|function| {
                let mut end = function.body.1;
                if r.slips(Slip::EmptyBodyShares) && end == function.body.0 {
                    end += 1;
                }
                (function.body.0..end.min(r.length())).any(|at| match held[at as usize] {
                    Some(id) => {
                        !(r.slips(Slip::OwnBodyMayShare) && Some(id) == held_by(function.id))
                    }
                    None => false,
                })
            })
        },
    },
];

/// The starts of the sections.
pub struct Places {
    pub kinds: u64,
    pub hashes: u64,
    pub small: u64,
    pub overflow: u64,
    pub storage: u64,
    pub tail: u64,
}

/// A word of the small table.
pub struct Small(pub u32);

impl Small {
    pub fn is_wide(&self) -> bool {
        self.0 & 1 == 1
    }

    pub fn offset(&self) -> u32 {
        self.0 >> 1 & 0x7f_ffff
    }

    pub fn length(&self) -> u32 {
        self.0 >> 24
    }

    pub fn overflows(&self) -> bool {
        self.length() == 255
    }
}

/// Where a string lies in storage.
#[derive(Clone)]
pub struct Stored {
    pub wide: bool,
    pub start: u64,
    pub end: u64,
}

/// What a record says, with its large header if it has one. Places are starts and ends.
pub struct Function {
    pub id: usize,
    pub header: Option<(u64, u64)>,
    pub body: (u64, u64),
    pub info: u64,
}

/// Which bytes of an image the words of large headers hold.
struct Held {
    /// For each byte one more than the id of the record.
    by: Vec<Option<NonZeroU32>>,
    /// Two records hold one byte.
    is_shared: bool,
}

fn held_by(id: usize) -> Option<NonZeroU32> {
    NonZeroU32::new(id as u32 + 1)
}

impl Reading<'_> {
    /// The number of the first sentence that applies, or 0.
    pub fn refusal(&self) -> u32 {
        let kept = |(i, _): &(usize, &Test)| self.slip != Some(Slip::Without(*i));
        let mut tests = TESTS.iter().enumerate().filter(kept);
        tests.find(|(_, test)| (test.broken)(self)).map_or(0, |(_, test)| test.number)
    }

    pub fn slips(&self, slip: Slip) -> bool {
        self.slip == Some(slip)
    }

    fn length(&self) -> u64 {
        if self.slips(Slip::LengthFromHeader) {
            return u64::from(word(self.image, FILE_LENGTH)).min(self.image.len() as u64);
        }
        self.image.len() as u64
    }

    pub fn footer(&self) -> u64 {
        self.length().saturating_sub(FOOTER as u64)
    }

    pub fn count(&self, at: usize) -> u32 {
        word(self.image, at)
    }

    /// No section that lies in the image has more items than the image has bytes. Only where the test of
    /// the sections is left out is a count cut by this.
    fn ids(&self, at: usize) -> std::ops::Range<usize> {
        0..(self.count(at) as usize).min(self.image.len())
    }

    pub fn places(&self) -> Places {
        let after = |start: u64, count: usize, size: usize| {
            let end = start + u64::from(self.count(count)) * size as u64;
            if self.slips(Slip::SectionsWrap) {
                end % (1 << 32)
            } else {
                end
            }
        };
        let kinds = after(HEADER as u64, FUNCTIONS, self.layout.record());
        let hashes = after(kinds, KINDS, 4);
        let small = after(hashes, IDENTIFIERS, 4);
        let overflow = after(small, STRINGS, 4);
        let storage = after(overflow, OVERFLOWS, 8);
        let end = after(storage, STORAGE, 1);
        let tail = if self.slips(Slip::TailNotRoundedUp) { end } else { end.div_ceil(4) * 4 };
        Places { kinds, hashes, small, overflow, storage, tail }
    }

    /// The sum of the counts of those kind words that are asked for.
    fn kinds_sum(&self, asked: fn(u32) -> bool) -> u64 {
        let kinds = self.places().kinds as usize;
        let words = self.ids(KINDS).map(|i| word(self.image, kinds + 4 * i));
        let ends = |word: &u32| !self.slips(Slip::EmptyKindsEnd) || word & !IDENTIFIER != 0;
        let counts = words.take_while(ends).filter(|word| asked(*word));
        let sum: u64 = counts.map(|word| u64::from(word & !IDENTIFIER)).sum();
        if self.slips(Slip::KindsWrap) {
            sum % (1 << 32)
        } else {
            sum
        }
    }

    fn smalls(&self) -> impl Iterator<Item = Small> + '_ {
        let small = self.places().small as usize;
        self.ids(STRINGS).map(move |i| Small(word(self.image, small + 4 * i)))
    }

    fn storage_size(&self) -> u64 {
        let size = u64::from(self.count(STORAGE));
        if self.slips(Slip::PaddingIsStorage) {
            let places = self.places();
            return places.tail - places.storage;
        }
        size
    }

    pub fn strings(&self) -> Vec<Stored> {
        let pairs = self.places().overflow as usize;
        let mut overflows = 0;
        let mut strings = vec![];
        for small in self.smalls() {
            let (mut start, mut count) = (small.offset(), small.length());
            if small.overflows() {
                start = word(self.image, pairs + 8 * overflows);
                count = word(self.image, pairs + 8 * overflows + 4);
                overflows += 1;
            }
            let wide = small.is_wide();
            let unit = if wide && !self.slips(Slip::WideCountsBytes) { 2 } else { 1 };
            let mut end = u64::from(start) + unit * u64::from(count);
            if self.slips(Slip::StringEndWraps) {
                end %= 1 << 32;
            }
            strings.push(Stored { wide, start: start.into(), end });
        }
        strings
    }

    pub fn functions(&self) -> impl Iterator<Item = Function> + '_ {
        self.ids(FUNCTIONS).map(|id| self.function(id))
    }

    pub fn function(&self, id: usize) -> Function {
        let size = self.layout.record();
        let record = number(self.image, HEADER + id * size, size);
        let field = |field: Field| u64::from(field.get(record));
        let is_large = field(self.layout.flags()) & LARGE_FLAG != 0;
        if !is_large {
            let start = field(record::OFFSET);
            let info = self.layout.info().map_or(0, field);
            let end = start + field(self.layout.size());
            return Function { id, header: None, body: (start, end), info };
        }
        let pointer = self.pointer(record);
        let mut words = self.layout.large() as u64;
        if self.slips(Slip::HeaderOfBothLayouts) {
            words = 16;
        }
        let at = |place: usize| u64::from(word(self.image, pointer as usize + place));
        let start = at(0);
        let mut end = start + at(self.layout.large_size());
        if self.slips(Slip::BodyEndWraps) {
            end = end % (1 << 32);
        }
        let mut info = self.layout.large_info().map_or(0, at);
        if self.slips(Slip::InfoOfLargeRecord) {
            info = self.layout.info().map_or(0, field);
        }
        Function { id, header: Some((pointer, pointer + words)), body: (start, end), info }
    }

    fn pointer(&self, record: u128) -> u64 {
        let [low, high] = self.layout.pointer();
        let mut pointer = u64::from(low.get(record)) + (u64::from(high.get(record)) << low.width);
        if self.slips(Slip::PointerModulo) {
            pointer %= 1 << 32;
        }
        if self.slips(Slip::PointerOf25Bits) {
            pointer |= u64::from(record::OFFSET.get(record));
        }
        pointer
    }

    fn headers(&self) -> impl Iterator<Item = (u64, u64)> + '_ {
        self.functions().filter_map(|function| function.header)
    }

    fn bodies(&self) -> impl Iterator<Item = (u64, u64)> + '_ {
        self.functions().map(|function| function.body)
    }

    fn before_tail(&self, start: u64, end: u64) -> bool {
        if self.slips(Slip::EmptyBodyAtZero) && start == 0 && end == 0 {
            return false;
        }
        start < self.places().tail
    }

    fn nonzero_places(&self) -> impl Iterator<Item = u64> + '_ {
        let at = if self.slips(Slip::DebugOfModern) { 108 } else { self.layout.debug() };
        let debug = u64::from(word(self.image, at));
        let infos = self.functions().map(|function| function.info);
        let infos = infos.filter(|place| *place != 0 || self.slips(Slip::InfoZeroJudged));
        let debug = Some(debug).filter(|place| *place != 0 || self.slips(Slip::DebugZeroJudged));
        infos.chain(debug)
    }

    fn held_by_headers(&self) -> Held {
        let mut held = Held { by: vec![None; self.image.len()], is_shared: false };
        let mut seen = vec![];
        for function in self.functions() {
            let Some((start, end)) = function.header else { continue };
            if self.slips(Slip::OnePointerTwice) && seen.contains(&start) {
                continue;
            }
            seen.push(start);
            for at in start..end.min(self.image.len() as u64) {
                let by = std::mem::replace(&mut held.by[at as usize], held_by(function.id));
                held.is_shared |= by.is_some();
            }
        }
        held
    }
}
