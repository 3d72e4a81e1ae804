//! Calls 14 to 19: footer.rs, and `finalize_raw_image` and `build_minimal_modern` of serialize.rs.
//!
//! Where the Rust grows a vector, ours takes a lent buffer: a result that the buffer does not hold is
//! refused with 13. Where the Rust takes a list of strings, ours takes one text and their end places:
//! ends that are none are refused with 15, and a string that is no UTF-8, which the Rust cannot be
//! given, with 8. These three are **a second reading** of document 01.

mod fixed;
mod random;

use hbc_decomp::write::footer::*;
use hbc_decomp::write::serialize::{build_minimal_modern, finalize_raw_image};

use crate::family::Argument::*;
use crate::family::{long, Answered, Departure, Family, Function, DONE};
use crate::stream::{words, Answer, Call, ARGUMENTS};

const SIZE: u32 = 1;
const VALUE: u32 = 8;
const FIELD: u32 = 12;
const ROOM: u32 = 13;
const JOB: u32 = 15;

/// The builder's first version.
const LEAST_VERSION: u32 = 97;

const LONGEST_BUFFER: usize = 65_536;

pub static FAMILY: Family = Family {
    name: "builder",
    functions: &FUNCTIONS,
    longest_buffer: LONGEST_BUFFER,
    fixed: fixed::calls,
    random: random::call,
    departures: &[Departure { name: "string not ASCII", explains: string_not_ascii }],
};

static FUNCTIONS: [Function; 6] = [
    Function {
        number: 14,
        name: "compute_file_hash",
        arguments: &[],
        run: |_, bytes| Ok(words(&compute_file_hash(bytes).unwrap())),
    },
    Function {
        number: 15,
        name: "append_footer",
        arguments: &[LongLow("length"), LongHigh("length")],
        run: |a, buffer| grown(a, buffer, |image| append_footer(image).unwrap()),
    },
    Function {
        number: 16,
        name: "rehash_footer",
        arguments: &[LongLow("length"), LongHigh("length")],
        run: |a, buffer| grown(a, buffer, |image| rehash_footer(image).unwrap()),
    },
    Function {
        number: 17,
        name: "verify_footer",
        arguments: &[],
        run: |_, buffer| Ok(vec![u32::from(verify_footer(buffer))]),
    },
    Function {
        number: 18,
        name: "finalize_raw_image",
        arguments: &[],
        run: |_, buffer| {
            let image = finalize_raw_image(buffer.to_vec()).map_err(|_| SIZE)?;
            stored(&image, buffer)
        },
    },
    Function {
        number: 19,
        name: "build_minimal_modern",
        arguments: &[
            Word("version"),
            Word("bytes of text"),
            Word("number of ends"),
            Word("bytes of body"),
        ],
        run: |a, buffer| {
            let job = Job::of(a, buffer);
            let image = job.image()?;
            stored(&image, &mut buffer[job.length()..])
        },
    },
];

/// What a function makes of a vector with the first bytes of the buffer, in the buffer.
fn grown(a: &[u32; ARGUMENTS], buffer: &mut [u8], grow: fn(&mut Vec<u8>)) -> Answered {
    let mut image = buffer.get(..long(a)).ok_or(ROOM)?.to_vec();
    grow(&mut image);
    stored(&image, buffer)
}

/// The image in the first bytes of the output, and its length as the result.
fn stored(image: &[u8], out: &mut [u8]) -> Answered {
    out.get_mut(..image.len()).ok_or(ROOM)?.copy_from_slice(image);
    Ok(vec![image.len() as u32])
}

/// What the builder is given. In the call's buffer text, ends and body stand before the output.
#[derive(Clone, Default)]
struct Job {
    version: u32,
    text: Vec<u8>,
    ends: Vec<u32>,
    body: Vec<u8>,
}

impl Job {
    fn of(a: &[u32; ARGUMENTS], buffer: &[u8]) -> Job {
        let (text, rest) = buffer.split_at(a[1] as usize);
        let (ends, rest) = rest.split_at(4 * a[2] as usize);
        let body = &rest[..a[3] as usize];
        Job { version: a[0], text: text.into(), ends: words(ends), body: body.into() }
    }

    fn call(&self, out: &[u8]) -> Call {
        let lengths =
            [self.text.len(), self.ends.len(), self.body.len()].map(|length| length as u32);
        let ends: Vec<u8> = self.ends.iter().flat_map(|end| end.to_le_bytes()).collect();
        let buffer = [&self.text[..], &ends, &self.body, out].concat();
        let [text, ends, body] = lengths;
        Call::new(
            FAMILY.function("build_minimal_modern"),
            &[self.version, text, ends, body],
            buffer,
        )
    }

    /// The bytes of the call's buffer before the output.
    fn length(&self) -> usize {
        self.text.len() + 4 * self.ends.len() + self.body.len()
    }

    /// None where an end is below the one before or past the text.
    fn strings(&self) -> Option<Vec<&[u8]>> {
        let mut start = 0;
        let mut string = |end: &u32| {
            let string = self.text.get(start..*end as usize)?;
            start = *end as usize;
            Some(string)
        };
        self.ends.iter().map(&mut string).collect()
    }

    /// The Rust's image, or the refusal's number.
    fn image(&self) -> Result<Vec<u8>, u32> {
        let bytes = self.strings().ok_or(JOB)?;
        let read = |bytes: &&[u8]| String::from_utf8(bytes.to_vec()).ok();
        let old_version = self.version < LEAST_VERSION;
        let strings: Vec<String> = bytes
            .iter()
            .map(read)
            .collect::<Option<_>>()
            .ok_or(if old_version { JOB } else { VALUE })?;
        // The Rust has two errors here: an old version, and a string that does not fit a small entry.
        build_minimal_modern(self.version, &strings, &self.body).map_err(|_| {
            if old_version {
                JOB
            } else {
                FIELD
            }
        })
    }
}

/// A string that is UTF-8 and not ASCII: the Rust stores its bytes as a narrow string (or, where it does
/// not fit, fails for that), ours refuses it.
fn string_not_ascii(call: &Call, mine: &Answer, theirs: &Answer) -> bool {
    if call.function.name != "build_minimal_modern" {
        return false;
    }
    let job = Job::of(&call.arguments, &call.buffer);
    let strings = job.strings();
    job.version >= LEAST_VERSION
        && strings.is_some_and(|strings| !strings.concat().is_ascii())
        && *mine == call.refused(VALUE)
        && [DONE, FIELD, ROOM].contains(&theirs.status)
}
