//! Images near the limits of 11 and 12, and of what a small entry holds: short ones, whose strings lie over each other and are no
//! two alike, so that they come to be long where each gets bytes of its own; and some that are alike, which then share a place.

use crate::image::layout::{Layout, HEADER};
use crate::patches::odd::PAST_FIELD;
use crate::patches::small::{Bare, Places};
use crate::random::Random;

const LIMIT: usize = 67_108_864;

/// A string: wide or not, where it stands in storage, its count.
pub type Said = (bool, usize, usize);

/// Strings that come to take so many bytes: wide ones of an even length, each of which starts one unit behind the one before, and
/// a narrow one of more than one byte; then others.
#[derive(Clone, Copy)]
pub struct Filled<'a> {
    pub layout: u8,
    pub long: usize,
    pub bytes: usize,
    pub others: &'a [Said],
}

impl Filled<'_> {
    /// How many long strings there are, and the length of the narrow one.
    fn counts(&self) -> (usize, usize) {
        let longs = (self.bytes - 2) / self.long;
        (longs, self.bytes - longs * self.long)
    }

    pub fn bare(&self) -> Bare {
        let (longs, narrow) = self.counts();
        let filling = (0..longs).map(|i| (true, 2 * i, self.long / 2)).chain([(false, 0, narrow)]);
        let strings = filling.chain(self.others.iter().copied());
        let strings: Vec<_> =
            strings.map(|(wide, start, count)| (wide, false, start, count)).collect();
        // Any bytes that a narrow string can have, so that no two of them are alike.
        let bytes = Random(41).bytes(self.long + 2 * longs);
        let storage = bytes.into_iter().map(|byte| byte & 0x7f).collect();
        let kinds = Some(vec![strings.len() as u32]);
        Bare { layout: self.layout, strings, storage, kinds, ..Bare::default() }
    }
}

#[derive(Clone, Copy)]
pub struct Near {
    pub layout: u8,
    /// How many bytes a long string has.
    pub long: usize,
    /// Where the tail comes to start, behind so many bytes of padding, where the strings are packed in plain mode. With 0 or 2 of
    /// them the even mode makes a gap then: behind the others stand a wide string and a narrow one.
    pub tail: usize,
    pub padding: usize,
    pub function: Option<Places>,
    /// The bytes of the tail.
    pub tail_bytes: usize,
    /// How many strings are like the first long one, behind all others.
    pub alike: usize,
}

impl Near {
    /// As few bytes as the strings of a call can have, for 11: there are no words for more than 204. Each place is past what a
    /// small record holds, too.
    pub fn past_limit(layout: u8) -> Near {
        let function = Some(Places::default());
        let (long, tail, padding) = (332_500, LIMIT, 0);
        Near { layout, long, tail, padding, function, tail_bytes: 4, alike: 0 }
    }

    /// The same for 12, of a body that is one too far.
    pub fn past_field(layout: u8) -> Near {
        let function = Some(Places { body: 4, ..Places::default() });
        Near { long: 166_500, tail: PAST_FIELD - 4, function, ..Near::past_limit(layout) }
    }

    pub fn image(&self) -> Vec<u8> {
        let (mut least, mut most) = (2, self.tail);
        while least + 1 < most {
            let middle = (least + most) / 2;
            *if self.tail_behind(middle) <= self.tail { &mut least } else { &mut most } = middle;
        }
        let functions = self.function.into_iter().collect();
        let others = self.others();
        let strings = self.filled(least - self.padding, &others).bare();
        Bare { functions, tail: self.tail_bytes, ..strings }.image()
    }

    fn others(&self) -> Vec<Said> {
        let alike = std::iter::repeat_n((true, 0, self.long / 2), self.alike);
        [(true, 0, 1), (false, 0, 1)].into_iter().chain(alike).collect()
    }

    fn filled<'a>(&self, bytes: usize, others: &'a [Said]) -> Filled<'a> {
        Filled { layout: self.layout, long: self.long, bytes, others }
    }

    /// Where the tail comes to start, with so many bytes before the others: so many that all strings are in the overflow table.
    fn tail_behind(&self, bytes: usize) -> usize {
        let (longs, _) = self.filled(bytes, &[]).counts();
        let records = self.function.map_or(0, |_| Layout(self.layout).record());
        let strings = longs + 3 + self.alike;
        // One word of kinds; the wide string and the narrow one have three bytes.
        (HEADER + records + 4 + 12 * strings + bytes + 3).next_multiple_of(4)
    }
}
