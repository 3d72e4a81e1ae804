//! Random calls: strings of few words, so that many are alike, and work space and room about as much as is asked for.

use super::near::Near;
use super::reading::{Asked, Packer, WORDS};
use super::OUTPUT;
use crate::image::layout::*;
use crate::image::maker::{make, Made, Shape, MIDDLE, SMALL};
use crate::index;
use crate::index::LIST;
use crate::job::packing::{Mode, MODES};
use crate::patches::draw as patches;
use crate::random::Random;
use crate::stream::Call;

/// Few strings that say much the same, wide and narrow, plain and identifiers, some on shared storage.
const ALIKE: Shape =
    Shape { strings: 18, wide: 3, functions: 3, body: 8, word: Some(word), ..SMALL };
/// About as many as a call has words for.
const MANY: Shape = Shape { strings: 204, ..ALIKE };

/// Words that are alike but for one thing: the last unit, the first, the high byte, the length, the order of the units.
fn word(random: &mut Random) -> Vec<u16> {
    const SAID: [&[u16]; 20] = [
        &[],
        &[0x61],
        &[0x61],
        &[0x62],
        &[0x61, 0x62],
        &[0x61, 0x62],
        &[0x62, 0x61],
        &[0x61, 0x63],
        &[0x61, 0x62, 0x63],
        &[0x61, 0x62, 0x63],
        &[0x62, 0x63],
        &[0x61, 0x00],
        &[0x61, 0x00, 0x62],
        &[0x6161],
        &[0x0161],
        &[0x0161, 0x62],
        &[0x61, 0x0162],
        &[0xd800],
        &[0xe9, 0x61],
        &[0xe9, 0x61],
    ];
    match random.below(24) {
        0 => vec![random.pick(&[0x78, 0x0178]); random.within(253..258)],
        1 => [word(random), word(random)].concat(),
        _ => random.pick(&SAID).to_vec(),
    }
}

pub fn call(random: &mut Random) -> Call {
    loop {
        if let Some(call) = drawn(random) {
            return call;
        }
    }
}

fn drawn(random: &mut Random) -> Option<Call> {
    let (layout, image) = image(random)?;
    let mode = random.pick(&MODES);
    let asked = Asked { layout, mode, image: &image };
    let work = work(random, asked.count());
    let room = room(random, &asked);
    Some(asked.call(&work, &random.bytes(room)))
}

fn image(random: &mut Random) -> Option<(Layout, Vec<u8>)> {
    let layout = random.pick(&LAYOUTS);
    match random.below(4_000) {
        // As long as an image of a call has to be for 11 and for 12; and with more strings than there are words for.
        0 => return Some((layout, Near::past_limit(layout.0).image())),
        1 => return Some((layout, Near::past_field(layout.0).image())),
        2 => return Some((layout, Near { long: 30_000, ..Near::past_limit(layout.0) }.image())),
        3..200 => return Some(index::draw::image(random)).filter(|(_, image)| image.len() < 9_000),
        _ => {}
    }
    let shape = match random.below(60) {
        0 => MANY,
        1 => MIDDLE,
        2..6 => SMALL,
        _ => ALIKE,
    };
    let made = make(random, layout, shape);
    // Of no strings there is little to pack.
    if made.strings.len() < 2 && !random.one_in(6) {
        return None;
    }
    match random.below(8) {
        0 => repacked(random, made),
        1 | 2 => patches::prepared(random, made),
        _ => Some((layout, made.image)),
    }
}

/// An image that was packed before, in either mode, and at times has another byte in its storage since.
fn repacked(random: &mut Random, made: Made) -> Option<(Layout, Vec<u8>)> {
    let (layout, mode) = (made.layout, random.pick(&MODES));
    let mut image = packed(&Asked { layout, mode, image: &made.image })?;
    let reading = Asked { layout, mode, image: &image }.reading().places();
    let storage = reading.storage as usize..reading.tail as usize;
    if random.one_in(2) && !storage.is_empty() {
        image[random.within(storage)] = random.pick(&[0, 1, 0x61, 0x62]);
    }
    Some((layout, image))
}

/// What comes out, with as much lent as it takes.
pub fn packed(asked: &Asked) -> Option<Vec<u8>> {
    // No image of a call comes to be longer than this, where it is accepted.
    let mut out = vec![0; 1 << 20];
    let mut work = vec![0; WORDS * asked.count().min(asked.image.len())];
    let length = Packer(None).repack(asked, &mut work, &mut out).ok()?;
    out.truncate(length as usize);
    Some(out)
}

/// As many words as are asked for, or about as many, with any words in them.
fn work(random: &mut Random, count: usize) -> Vec<u32> {
    let needed = WORDS * count.min(LIST);
    let length = match random.below(16) {
        0 => random.pick(&[0, count.min(LIST), 4 * count.min(LIST), needed.saturating_sub(1)]),
        1 => random.within(0..needed + 8),
        2..8 => needed + random.within(0..9),
        _ => needed,
    };
    let length = length.min(LIST);
    match random.below(4) {
        0 => vec![random.pick(&[0, 1, u32::MAX]); length],
        _ => (0..length).map(|_| random.next() as u32).collect(),
    }
}

/// As much as the result takes, mostly; by one less, more, and as much as the other mode takes.
fn room(random: &mut Random, asked: &Asked) -> usize {
    let Some(made) = packed(asked) else { return random.within(0..40) };
    let other = if asked.mode == Mode::Even { Mode::Plain } else { Mode::Even };
    let room = match random.below(16) {
        0 => made.len() - 1,
        1 => random.within(0..made.len()),
        2 => packed(&Asked { mode: other, ..*asked }).map_or(0, |made| made.len()),
        3 => asked.image.len(),
        4..8 => made.len() + random.within(1..24),
        _ => made.len(),
    };
    room.min(OUTPUT)
}
