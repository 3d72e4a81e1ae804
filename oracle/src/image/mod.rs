//! Calls 30 and 31: admission; call 35: a string by its id. The Rust has none, so all answers are those of **a
//! second reading** of documents 01 and 02, over images made at random, whole and damaged.

pub mod damage;
pub mod layout;
pub mod maker;
pub mod reading;
pub mod walk;

use crate::family::Argument::*;
use crate::family::{Answered, Family, Function};
use crate::random::Random;
use crate::stream::{Call, ARGUMENTS};
use damage::DAMAGES;
use layout::{Layout, LAYOUTS};
use layout::{FUNCTIONS as FUNCTION_COUNT, IDENTIFIERS, KINDS, OVERFLOWS, STORAGE, STRINGS};
use maker::{make, Shape, HUGE, LARGE, MIDDLE, SMALL};
use reading::Reading;

const LONGEST_BUFFER: usize = 65_536;

pub static FAMILY: Family = Family {
    name: "image",
    functions: &FUNCTIONS,
    longest_buffer: LONGEST_BUFFER,
    fixed,
    random,
    departures: &[],
};

static FUNCTIONS: [Function; 3] = [
    Function {
        number: 30,
        name: "admit: the places",
        arguments: &[Word("layout")],
        run: |a, image| {
            let reading = admitted(a, image)?;
            let p = reading.places();
            let places =
                [p.kinds, p.hashes, p.small, p.overflow, p.storage, p.tail, reading.footer()];
            let layout = u32::from(reading.layout.0);
            Ok([layout].into_iter().chain(places.map(|place| place as u32)).collect())
        },
    },
    Function {
        number: 31,
        name: "admit: the counts",
        arguments: &[Word("layout")],
        run: |a, image| {
            let reading = admitted(a, image)?;
            let counts = [FUNCTION_COUNT, KINDS, IDENTIFIERS, STRINGS, OVERFLOWS, STORAGE];
            Ok(counts.map(|at| reading.count(at)).to_vec())
        },
    },
    Function {
        number: LOCATE,
        name: "locate a string",
        arguments: &[Word("layout"), Word("id")],
        run: |a, image| located(a, image, None),
    },
];

const LOCATE: u32 = 35;

/// Where a string stands, its width and flag, how many small entries and overflow pairs are visited to find it,
/// and its rank plus 1, or 0 where it has none.
fn located(a: &[u32; ARGUMENTS], image: &[u8], slip: Option<reading::Slip>) -> Answered {
    let mut reading = admitted(a, image)?;
    reading.slip = slip;
    let string = walk::locate(&reading, a[1])?;
    let place = [string.start, string.bytes, string.units].map(|number| number as u32);
    let flags = [string.wide, string.identifier].map(u32::from);
    let counts = [string.small, string.pairs].map(|count| count as u32);
    let rank = string.rank.map_or(0, |rank| rank as u32 + 1);
    Ok([&place[..], &flags, &counts, &[rank]].concat())
}

fn admitted<'a>(a: &[u32; ARGUMENTS], image: &'a [u8]) -> Result<Reading<'a>, u32> {
    let reading = Reading { layout: Layout(a[0] as u8), image, slip: None };
    match reading.refusal() {
        0 => Ok(reading),
        number => Err(number),
    }
}

fn call(number: u32, layout: Layout, image: Vec<u8>) -> Call {
    Call::new(function(number), &[layout.0.into()], image)
}

fn locating(layout: Layout, id: u32, image: Vec<u8>) -> Call {
    Call::new(function(LOCATE), &[layout.0.into(), id], image)
}

fn function(number: u32) -> &'static Function {
    FUNCTIONS.iter().find(|function| function.number == number).unwrap()
}

/// An image, damaged in one way or in none; None where it has nothing that could be damaged so, or is
/// too long for a call.
fn image(
    random: &mut Random,
    layout: Layout,
    shape: Shape,
    damage: Option<damage::Damage>,
) -> Option<Vec<u8>> {
    let made = make(random, layout, shape);
    let image = match damage {
        Some(damage) => damage(random, &made)?,
        None => made.image,
    };
    (image.len() <= LONGEST_BUFFER).then_some(image)
}

/// Each layout whole, and with each damage, a few times.
fn fixed() -> Vec<Call> {
    let mut calls = vec![];
    let mut random = Random(30);
    for layout in LAYOUTS {
        let all = DAMAGES.iter().map(|(_, damage)| Some(*damage)).chain([None; 4]);
        for damage in all {
            let tries = std::iter::repeat_with(|| image(&mut random, layout, SMALL, damage));
            for image in tries.take(100).flatten().take(4) {
                calls.push(call(30, layout, image));
            }
        }
        let whole = image(&mut random, layout, MIDDLE, None).unwrap();
        calls.extend([30, 31].map(|number| call(number, layout, whole.clone())));
    }
    calls.extend(fixed_locating());
    calls
}

/// Each string of some small images, the ids past the last, and images that are refused.
fn fixed_locating() -> Vec<Call> {
    let mut calls = vec![];
    let mut random = Random(35);
    for layout in LAYOUTS {
        for _ in 0..4 {
            let whole = image(&mut random, layout, SMALL, None).unwrap();
            let count = layout::word(&whole, STRINGS);
            let ids = (0..=count + 1).chain([u32::MAX]);
            calls.extend(ids.map(|id| locating(layout, id, whole.clone())));
        }
        let damaged = |(_, damage): &(_, _)| image(&mut random, layout, SMALL, Some(*damage));
        let refused = DAMAGES.iter().filter_map(damaged).take(6);
        calls.extend(refused.map(|image| locating(layout, 0, image)));
    }
    calls
}

/// A string of an image, or an id past its last one.
fn random_id(random: &mut Random, image: &[u8]) -> u32 {
    let count = layout::word(image, STRINGS).min(LONGEST_BUFFER as u32) as usize;
    match random.below(8) {
        0 => random.pick(&[0, count.saturating_sub(1), count, count + 1]) as u32,
        1 => random.next() as u32,
        _ => random.within(0..count + 1) as u32,
    }
}

fn random(random: &mut Random) -> Call {
    let layout = random.pick(&LAYOUTS);
    let shape = match random.below(200) {
        0 => HUGE,
        1..6 => LARGE,
        6..40 => MIDDLE,
        _ => SMALL,
    };
    // What is located is mostly whole, what is admitted mostly damaged.
    let locates = random.one_in(4);
    let whole = random.one_in(8) != locates;
    let damage = (!whole).then(|| random.pick(&DAMAGES).1);
    match image(random, layout, shape, damage) {
        // At times read as another layout than it was made for.
        Some(image) => {
            let stated = if random.one_in(32) { random.pick(&LAYOUTS) } else { layout };
            if locates {
                return locating(stated, random_id(random, &image), image);
            }
            call(if random.one_in(8) { 31 } else { 30 }, stated, image)
        }
        None => self::random(random),
    }
}

/// Whether images that are made whole are admitted: a maker that made bad ones would hide what damage does.
pub fn makes_whole_images() -> bool {
    let mut random = Random(31);
    let whole = |random: &mut Random| {
        let shape = random.pick(&[SMALL, MIDDLE, LARGE]);
        let layout = random.pick(&LAYOUTS);
        let made = make(random, layout, shape);
        Reading { layout: made.layout, image: &made.image, slip: None }.refusal() == 0
    };
    (0..2000).all(|_| whole(&mut random))
}

/// Whether the reading with a slip answers a call otherwise.
pub fn finds(call: &Call, slip: reading::Slip) -> bool {
    let layout = Layout(call.arguments[0] as u8);
    let with = |slip| Reading { layout, image: &call.buffer, slip }.refusal();
    let located = |slip| located(&call.arguments, &call.buffer, slip);
    with(None) != with(Some(slip))
        || call.function.number == LOCATE && located(None) != located(Some(slip))
}
