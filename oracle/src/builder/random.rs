//! Seeded random calls of footer, finalize and builder, leaning towards the limits.

use hbc_decomp::write::footer::append_footer;

use super::{Job, FAMILY, LONGEST_BUFFER};
use crate::family::halves;
use crate::random::Random;
use crate::stream::Call;

pub fn call(random: &mut Random) -> Call {
    match random.below(8) {
        0 => plain(random, "compute_file_hash"),
        1 => plain(random, "finalize_raw_image"),
        2 => sized(random, "append_footer"),
        3 => sized(random, "rehash_footer"),
        4 => verify(random),
        _ => build(random),
    }
}

fn plain(random: &mut Random, name: &str) -> Call {
    let length = length(random);
    Call::new(FAMILY.function(name), &[], random.bytes(length))
}

fn length(random: &mut Random) -> usize {
    match random.below(32) {
        0 => random.within(0..LONGEST_BUFFER + 1),
        1 => LONGEST_BUFFER,
        2..8 => random.within(0..2000),
        _ => random.within(0..260),
    }
}

/// An image in a buffer: mostly with room for a footer, or with none at all, or nearly.
fn sized(random: &mut Random, name: &str) -> Call {
    let image = length(random).min(LONGEST_BUFFER - 40);
    let room = match random.below(8) {
        0 => random.within(0..image + 1),
        1 => image,
        2 => image + random.within(0..20),
        3 => image + 20,
        _ => image + random.within(20..41),
    };
    let long = match random.below(16) {
        0 => random.next(),
        1 => image as u64 | 1 << (32 + random.below(32)),
        2 => u64::MAX - random.below(40),
        _ => image as u64,
    };
    Call::new(FAMILY.function(name), &halves(long), random.bytes(room))
}

fn verify(random: &mut Random) -> Call {
    let length = length(random).min(LONGEST_BUFFER - 20);
    let mut image = random.bytes(length);
    if !random.one_in(4) {
        append_footer(&mut image).unwrap();
        if random.one_in(2) {
            let place = random.within(0..image.len());
            image[place] ^= 1 << random.below(8);
        }
    }
    Call::new(FAMILY.function("verify_footer"), &[], image)
}

fn build(random: &mut Random) -> Call {
    let mut job = strings(random);
    let body = match random.below(16) {
        0 => 20_000,
        1..5 => random.within(0..500),
        _ => random.within(0..6),
    };
    job.body = random.bytes(body);
    job.version = match random.below(16) {
        0 => random.within(0..97) as u32,
        1 => 96,
        2 => random.next() as u32,
        _ => 97 + random.below(3) as u32,
    };
    if random.one_in(16) && !job.ends.is_empty() {
        let place = random.within(0..job.ends.len());
        job.ends[place] = match random.below(3) {
            0 => job.ends[place].wrapping_sub(1),
            1 => job.text.len() as u32 + 1,
            _ => random.next() as u32,
        };
    }
    let exact = job.image().map_or(0, |image| image.len());
    let room = match random.below(8) {
        0 => random.within(0..exact + 1),
        1 => exact.saturating_sub(1),
        2 => exact,
        _ => exact + random.within(0..40),
    };
    job.call(&random.bytes(room))
}

/// Strings and their ends: mostly short and ASCII, at times with a letter that is not, or a byte that is
/// no letter; and at times text after them.
fn strings(random: &mut Random) -> Job {
    let count = match random.below(16) {
        0 => 0,
        1 => random.within(0..200),
        _ => random.within(0..8),
    };
    let odd = random.one_in(4);
    let mut job = Job::default();
    for _ in 0..count {
        let length = match random.below(40) {
            0 => random.within(250..260),
            1 => 254,
            2..10 => 0,
            _ => random.within(0..12),
        };
        for _ in 0..length {
            job.text.push(random.below(128) as u8);
        }
        if odd && random.one_in(count as u64) {
            job.text.extend_from_slice(random.pick(&["é", "日本", "🙂", "\u{80}"]).as_bytes());
        }
        job.ends.push(job.text.len() as u32);
    }
    if odd && random.one_in(4) && !job.text.is_empty() {
        let place = random.within(0..job.text.len());
        job.text[place] = 0x80 | random.next() as u8;
    }
    if random.one_in(4) {
        let rest = random.within(0..300);
        job.text.extend(random.bytes(rest));
    }
    job
}
