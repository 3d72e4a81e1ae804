//! Seeded random calls of the leaves, leaning towards the limits.

use super::record::{number, INFO};
use super::shifts::Shift;
use super::{buffer_of, Buffer, LEAVES, LONGEST_BUFFER};
use crate::family::{halves, Argument};
use crate::random::Random;
use crate::stream::Call;

pub fn call(random: &mut Random) -> Call {
    let leaf = &LEAVES[random.below(LEAVES.len() as u64) as usize];
    let buffer = buffer(random, buffer_of(leaf));
    let [low, high] = halves(position(random, buffer.len() as u64));
    let mut arguments: Vec<u32> = leaf
        .arguments
        .iter()
        .map(|argument| match argument {
            Argument::Word(_) => value(random, 32) as u32,
            Argument::Flag(_) => random.below(2) as u32,
            Argument::Delta => delta(random) as u32,
            Argument::LongLow(_) => low,
            Argument::LongHigh(_) => high,
        })
        .collect();
    let call = Call::new(leaf, &arguments, buffer);
    match limit(random, &call) {
        Some(delta) => {
            *arguments.last_mut().unwrap() = delta as u32;
            Call::new(leaf, &arguments, call.buffer)
        }
        None => call,
    }
}

/// For some shifts, a delta that makes a sum 0 or the most that its place holds, or is off by one.
fn limit(random: &mut Random, call: &Call) -> Option<i32> {
    let shift = Shift::of(call)?;
    let end = match shift {
        Shift::WordAt(position) => position.checked_add(4)?,
        _ => buffer_of(call.function).least(),
    };
    if end > call.buffer.len() || random.below(2) == 0 {
        return None;
    }
    let places = shift.places(&call.buffer);
    let place = places[random.below(places.len() as u64) as usize];
    let target = [0, 1 << place.bits()][random.below(2) as usize] - random.below(3) as i64 + 1;
    i32::try_from(target - place.get(&call.buffer) as i64).ok()
}

fn buffer(random: &mut Random, kind: Buffer) -> Vec<u8> {
    let least = kind.least();
    let length = match random.below(8) {
        0 => random.below(least as u64 + 1) as usize,
        1 => least.saturating_sub(1),
        2 => least + 1,
        3 => random.below(LONGEST_BUFFER as u64 + 1) as usize,
        _ => least,
    };
    let mut buffer = match random.below(4) {
        0 => vec![0; length],
        1 => vec![0xff; length],
        _ => (0..length).map(|_| random.next() as u8).collect(),
    };
    if length >= least && !kind.fields().is_empty() {
        let mut record = number(&buffer[..least]);
        for field in kind.fields() {
            if random.below(2) == 0 {
                record = field.set(record, value(random, field.width));
            }
        }
        // a pointer about 2^32, which a delta can bring to either side
        if matches!(kind, Buffer::LegacySlot) && random.below(4) == 0 {
            record = INFO.set(record, 0xffff + random.below(1 << 15));
        }
        buffer[..least].copy_from_slice(&record.to_le_bytes()[..least]);
    }
    buffer
}

/// A value for a field of `width` bits, at times one that does not fit.
fn value(random: &mut Random, width: u32) -> u64 {
    let limit = 1u64 << width;
    match random.below(8) {
        0 => 0,
        1 => limit - 1,
        2 => random.below(16),
        3 => limit - 1 - random.below(16).min(limit - 1),
        4 => 1 << random.below(32),
        5 => (1 << random.below(32)) - 1,
        _ => random.next(),
    }
}

fn delta(random: &mut Random) -> i32 {
    match random.below(8) {
        0 => 0,
        1 => 1,
        2 => -1,
        3 => i32::MIN,
        4 => i32::MAX,
        5 => random.below(8192) as i32 - 4096,
        _ => random.next() as i32,
    }
}

/// A position in a buffer of `length` bytes: mostly where a word fits, else just past the last
/// such place, in reach again if its high half were dropped, near the end of 64 bits, or anywhere.
fn position(random: &mut Random, length: u64) -> u64 {
    let places = (length + 1).saturating_sub(4);
    match random.below(8) {
        0 => places + random.below(6),
        1 => random.below(length + 1) + (1 << (32 + random.below(32))),
        2 => u64::MAX - random.below(8),
        3 => random.next(),
        _ => random.below(places.max(1)),
    }
}
