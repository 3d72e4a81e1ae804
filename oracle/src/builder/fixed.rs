//! The fixed calls: every function, each limit that a stream can reach. They hold no call on which a
//! listed departure bears, so that the recorded answers are at once the Rust's and ours.

use hbc_decomp::write::footer::append_footer;

use super::{Job, FAMILY, LEAST_VERSION};
use crate::family::halves;
use crate::stream::Call;

/// Around the footer's length, the least image, where a footer and the file length part, the padding of
/// one block and of two, and with a footer after these.
const LENGTHS: [usize; 37] = [
    0, 1, 18, 19, 20, 21, 35, 36, 37, 40, 54, 55, 56, 57, 62, 63, 64, 65, 74, 75, 76, 77, 82, 83,
    84, 85, 118, 119, 120, 127, 128, 129, 138, 139, 140, 148, 1000,
];

/// A byte that no builder writes by itself, for what a call has to leave alone.
const OLD: u8 = 0xa5;

pub fn calls() -> Vec<Call> {
    let mut calls = vec![];
    footers(&mut calls);
    lengths_of_images(&mut calls);
    verified(&mut calls);
    accepted(&mut calls);
    rooms(&mut calls);
    refused(&mut calls);
    calls
}

fn pattern(length: usize) -> Vec<u8> {
    (0..length).map(|i| (i * 37 + i / 251 + length) as u8).collect()
}

fn footers(calls: &mut Vec<Call>) {
    for length in LENGTHS {
        for name in ["compute_file_hash", "finalize_raw_image"] {
            calls.push(Call::new(FAMILY.function(name), &[], pattern(length)));
        }
        for room in [length + 19, length + 20, length + 25] {
            calls.push(sized("append_footer", length as u64, pattern(room)));
        }
        let footed = if length < 20 { length + 20 } else { length };
        for room in [footed - 1, footed, footed + 5] {
            calls.push(sized("rehash_footer", length as u64, pattern(room)));
        }
    }
}

/// Lengths past the buffer's end, and those to which 20 cannot be added.
fn lengths_of_images(calls: &mut Vec<Call>) {
    for length in
        [41, 60, 61, 1 << 32, (1 << 32) + 1, 1 << 63, u64::MAX - 20, u64::MAX - 19, u64::MAX]
    {
        for room in [0, 19, 20, 40] {
            for name in ["append_footer", "rehash_footer"] {
                calls.push(sized(name, length, pattern(room)));
            }
        }
    }
}

fn sized(name: &str, length: u64, buffer: Vec<u8>) -> Call {
    Call::new(FAMILY.function(name), &halves(length), buffer)
}

/// Footers that are right, and right but for one bit.
fn verified(calls: &mut Vec<Call>) {
    let mut verify = |buffer| calls.push(Call::new(FAMILY.function("verify_footer"), &[], buffer));
    for length in LENGTHS {
        let mut image = pattern(length);
        verify(image.clone());
        append_footer(&mut image).unwrap();
        verify(image.clone());
        for place in [0, length / 2, length, length + 10, length + 19] {
            let mut damaged = image.clone();
            damaged[place] ^= 1 << (place % 8);
            verify(damaged);
        }
    }
}

fn job(strings: &[&[u8]], body: &[u8]) -> Job {
    let mut job = Job { version: LEAST_VERSION + 1, body: body.into(), ..Job::default() };
    for string in strings {
        job.text.extend_from_slice(string);
        job.ends.push(job.text.len() as u32);
    }
    job
}

/// In a buffer with nine bytes to spare.
fn roomy(job: &Job) -> Call {
    let length = job.image().map_or(0, |image| image.len());
    job.call(&vec![OLD; length + 9])
}

fn accepted(calls: &mut Vec<Call>) {
    let long = vec![b'x'; 254];
    let lists: [&[&[u8]]; 9] = [
        &[],
        &[b""],
        &[b"", b"", b""],
        &[b"a", b"bc"],
        &[b"", b"a", b"", b"\x7f\0"],
        &[&long],
        &[&long, &long, b"", &long],
        &[b"a", b"ab", b"abc", b"abcd", b"abcde"],
        &[b"same", b"same"],
    ];
    for strings in lists {
        for size in 0..=5 {
            calls.push(roomy(&job(strings, &pattern(size))));
        }
    }
    calls.push(roomy(&job(&[b"a", b"bc"], &pattern(20_000))));
    calls.push(roomy(&job(&vec![&b"many"[..]; 300], &pattern(7))));
    for version in [LEAST_VERSION, LEAST_VERSION + 1, u32::MAX] {
        calls.push(roomy(&Job { version, ..job(&[b"v"], &[0x5c]) }));
    }
    // Text past the last end is not read, whatever it is.
    for rest in [&b"more"[..], b"\xff", &[b'x'; 300]] {
        for strings in [&[][..], &[&b"a"[..], b"bc"][..]] {
            let mut job = job(strings, &[1, 2, 3]);
            job.text.extend_from_slice(rest);
            calls.push(roomy(&job));
        }
    }
}

fn rooms(calls: &mut Vec<Call>) {
    for (strings, size) in [(&[][..], 0), (&[][..], 5), (&[&b"a"[..], b"bc"][..], 4)] {
        let job = job(strings, &pattern(size));
        let exact = job.image().unwrap().len();
        for room in [0, 148, exact - 1, exact, exact + 1] {
            calls.push(job.call(&vec![OLD; room]));
        }
    }
}

fn refused(calls: &mut Vec<Call>) {
    let plain = job(&[b"a", b"bc", b"def"], &[1, 2, 3]);
    let mut refuse = |job: Job| {
        for room in [0, 300] {
            calls.push(job.call(&vec![OLD; room]));
        }
    };
    // 15: versions, and ends that are none. The text has six bytes.
    for version in [0, 1, LEAST_VERSION - 1] {
        refuse(Job { version, ..plain.clone() });
    }
    for ends in [
        [2, 1, 6],
        [1, 3, 2],
        [7, 7, 7],
        [1, 3, 7],
        [u32::MAX, 3, 6],
        [1, u32::MAX, 6],
        [1, 3, u32::MAX],
    ] {
        refuse(Job { ends: ends.into(), ..plain.clone() });
    }
    // 8: bytes that are no UTF-8, and a letter of two bytes cut in two strings.
    for text in [b"\x80bcdef", b"a\xffcdef", b"abcde\x80", b"\xc3\xa9cdef"] {
        refuse(Job { text: text.into(), ..plain.clone() });
    }
    // 12: 255 bytes and more.
    for length in [255, 256, 300, 1000] {
        let long = vec![b'x'; length];
        refuse(job(&[&long], &[]));
        refuse(job(&[b"a", &long, b"b"], &[1]));
    }
    // Two at once: the first in order is given.
    let long = vec![b'x'; 255];
    refuse(Job { version: 96, text: b"\x80bcdef".into(), ..plain.clone() });
    refuse(Job { text: b"\x80bcdef".into(), ends: vec![2, 1, 6], ..plain.clone() });
    refuse(job(&[&long, b"\x80"], &[]));
    refuse(job(&[b"\x80", &long], &[]));
    refuse(Job { version: 96, ..job(&[&long], &[]) });
    refuse(Job { ends: vec![255, 254], ..job(&[&long, b"a"], &[]) });
}
