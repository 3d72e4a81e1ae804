//! Patches of images with more than 8 MiB of storage: strings go to the overflow table by their offset too.

use super::Job;
use oracle::job::packing::Mode;
use oracle::patches::parsed::parsed;

fn put(image: &mut [u8], at: usize, word: usize) {
    image[at..at + 4].copy_from_slice(&(word as u32).to_le_bytes());
}

/// Strings of the lengths, narrow and wide in turn, in an overflow entry where they need one; one function.
fn image(counts: &[usize]) -> Vec<u8> {
    let is_wide = |i: usize| i % 2 == 1;
    let mut offsets = vec![0];
    for (i, count) in counts.iter().enumerate() {
        offsets.push(offsets[i] + count * if is_wide(i) { 2 } else { 1 });
    }
    let over = |i: usize| counts[i] >= 255 || offsets[i] >= 0x80_0000;
    let pairs = (0..counts.len()).filter(|i| over(*i)).count();
    let small = 128 + 16 + 4;
    let overflow = small + 4 * counts.len();
    let storage = overflow + 8 * pairs;
    let size = offsets[counts.len()];
    let tail = (storage + size).next_multiple_of(4);
    let mut image = vec![0; tail + 4 + 20];
    image[..8].copy_from_slice(&0x1F19_03C1_03BC_1FC6u64.to_le_bytes());
    let n = counts.len();
    for (at, word) in
        [(40, 1), (44, 1), (52, n), (56, pairs), (60, size), (128, tail), (132, 4), (144, n)]
    {
        put(&mut image, at, word);
    }
    let mut pair = 0;
    for i in 0..n {
        let (mut offset, mut count) = (offsets[i], counts[i]);
        if over(i) {
            put(&mut image, overflow + 8 * pair, offset);
            put(&mut image, overflow + 8 * pair + 4, count);
            (offset, count) = (pair, 255);
            pair += 1;
        }
        put(&mut image, small + 4 * i, count << 24 | offset << 1 | usize::from(is_wide(i)));
    }
    for at in storage..storage + size {
        image[at] = b'a' + (at % 23) as u8;
    }
    image
}

/// Strings end up below, at and past offset 0x800000, by their own patch or by that of one before.
pub fn compare() {
    let cases: [(&[usize], usize); 8] = [
        (&[8_388_600, 1, 3, 4], 8),
        (&[8_388_600, 1, 3, 4], 7),
        (&[8_388_607, 0, 3, 4, 254], 1),
        (&[8_388_608, 2, 3, 4, 0], 3),
        (&[8_388_600, 100_000, 3, 4], 0),
        (&[10, 8_388_600, 7, 255], 300),
        (&[0; 2], 8_388_609),
        (&[8_388_607, 4_000_000, 9, 8, 7, 8_000_000, 1], 12),
    ];
    let mut patches = [0; 2];
    for (counts, length) in cases {
        let image = image(counts);
        let new = vec![b'x'; length];
        for (count, mode) in patches.iter_mut().zip([Mode::Plain, Mode::Even]) {
            for id in 0..counts.len() as u32 {
                let job = Job { layout: 1, mode, image: &image, id, new: &new, is_body: false };
                let mut out = vec![0; image.len() + 9_000_000];
                let ours = job.ours(&mut out);
                let theirs = job.theirs(&mut parsed(&job.reading()));
                assert!(
                    out.get(..ours as usize) == Some(&theirs[..]),
                    "{counts:?}, {length}, {id}: {ours}"
                );
                *count += 1;
            }
        }
    }
    let [plain, even] = patches;
    println!("bench: {plain} patches of images over 8 MiB are the Rust's, {even} in even mode the second reading's");
}
