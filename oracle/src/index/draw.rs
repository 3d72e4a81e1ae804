//! Random calls: images mostly whole, indexes about as long as they ask for, with any words in them.

use super::{filling, index_of, listing, listing_of, looking_up, INPUTS, LIST, OUTPUT};
use crate::image::damage::DAMAGES;
use crate::image::layout::*;
use crate::image::maker::{make, HUGE, LARGE, MIDDLE, SMALL};
use crate::image::reading::Reading;
use crate::random::Random;
use crate::stream::Call;

pub fn call(random: &mut Random) -> Call {
    if random.one_in(4) {
        return lookup(random);
    }
    let (layout, image) = image(random);
    let index = index(random, layout, &image);
    if image.len() + 4 * index.len() > INPUTS {
        return call(random);
    }
    if random.one_in(2) {
        return filling(layout, &image, &index);
    }
    let (from, room) = part(random, layout, &image);
    listing(layout, &image, &index, from, &random.bytes(room))
}

/// An image and the layout that it is read by: one in eight is damaged, and a few are read by another layout than they
/// were made for.
pub fn image(random: &mut Random) -> (Layout, Vec<u8>) {
    let layout = random.pick(&LAYOUTS);
    let shape = match random.below(1000) {
        0 => HUGE,
        1..8 => LARGE,
        8..150 => MIDDLE,
        _ => SMALL,
    };
    let made = make(random, layout, shape);
    let damage = random.one_in(8).then(|| random.pick(&DAMAGES).1);
    let damaged = damage.and_then(|damage| damage(random, &made));
    let stated = if random.one_in(64) { random.pick(&LAYOUTS) } else { layout };
    (stated, damaged.unwrap_or(made.image))
}

fn is_admitted(layout: Layout, image: &[u8]) -> bool {
    Reading { layout, image, slip: None }.refusal() == 0
}

/// As many words as are asked for, or about as many; any words, one word in all places, those of the image's own index.
pub fn index(random: &mut Random, layout: Layout, image: &[u8]) -> Vec<u32> {
    let count = (word(image, STRINGS) as usize).min(LIST);
    let length = match random.below(8) {
        0 => random.pick(&[0, count, 2 * count, (3 * count).saturating_sub(1), 3 * count + 1]),
        1 => random.within(0..3 * count + 8),
        2 => 3 * count + random.within(0..40),
        _ => 3 * count,
    };
    let mut index = words(random, length.min(LIST));
    if random.one_in(8) && is_admitted(layout, image) {
        index.iter_mut().zip(index_of(layout, image)).for_each(|(word, own)| *word = own);
    }
    index
}

fn words(random: &mut Random, length: usize) -> Vec<u32> {
    match random.below(4) {
        0 => vec![random.pick(&[0, 1, u32::MAX]); length],
        1 => (0..length).map(|_| random.below(5) as u32).collect(),
        _ => (0..length).map(|_| random.next() as u32).collect(),
    }
}

/// A place in the listing, and room for what is left of it, or about as much.
fn part(random: &mut Random, layout: Layout, image: &[u8]) -> (u64, usize) {
    let admitted = is_admitted(layout, image);
    let length = if admitted { listing_of(layout, image).len() } else { 50 };
    let from = match random.below(8) {
        0 => random.next() >> random.below(64),
        1 => (length + 1 - random.within(0..3)) as u64,
        2..5 => random.within(0..length + 1) as u64,
        _ => 0,
    };
    let left = length.saturating_sub(from.min(length as u64) as usize);
    let room = match random.below(8) {
        0 => random.within(0..3),
        1 => left + 1 - random.within(0..2),
        2..4 => random.within(0..left + 4),
        4 => left + random.within(0..40),
        _ => left,
    };
    (from, room.min(OUTPUT))
}

/// A lookup in any words. The count is about a third of them, and at times any number; the id about the count.
fn lookup(random: &mut Random) -> Call {
    let length = if random.one_in(16) { random.within(0..LIST + 1) } else { random.within(0..24) };
    let index = words(random, length);
    let third = length as u64 / 3;
    let count = match random.below(16) {
        0 => random.next() >> random.below(64),
        1 => {
            (((1u128 << random.pick(&[32, 33, 64, 65])) + u128::from(random.below(30))) / 3) as u64
        }
        2 | 3 => third + 1,
        4..7 => random.below(third + 1),
        _ => third,
    };
    let id = match random.below(16) {
        0 => random.next() >> random.below(64),
        1 => count.saturating_add(random.below(2)),
        2 => count.saturating_sub(1),
        3 => random.below(8) << 32,
        _ => random.below(count.saturating_add(1).min(1 << 40)),
    };
    looking_up(&index, count, id)
}
