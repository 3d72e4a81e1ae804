//! Limits that no stream of calls reaches, since they take inputs or results of 8 to 70 MB: our exports are held to the
//! Rust, and to documents 01 and 02 where the Rust has no limit, no such mode, no such pass and tells no reason. Ends with 1 at
//! the first difference.

mod lists;
mod modes;
mod reasons;

use std::process::ExitCode;

use exports::{OLD, REFUSED};
use hbc_decomp::write::serialize::{build_minimal_modern, finalize_raw_image};

/// 01, refusals 1 and 11.
const LIMIT: usize = 67_108_864;
/// 01, refusal 12.
const FAR: usize = 0x80_0000;
/// The length of an image with no strings and an empty body: 144 bytes of sections, 40 of a large header, the footer.
const EMPTY: usize = 204;

struct Job {
    text: Vec<u8>,
    ends: Vec<u32>,
    body: Vec<u8>,
}

impl Job {
    fn ours(&self, out: &mut [u8]) -> u64 {
        exports::build(98, &self.text, &self.ends, &self.body, out)
    }

    fn theirs(&self) -> Option<Vec<u8>> {
        let mut start = 0;
        let mut string = |end: &u32| {
            let bytes = &self.text[start..*end as usize];
            start = *end as usize;
            String::from_utf8(bytes.to_vec()).unwrap()
        };
        let strings: Vec<String> = self.ends.iter().map(&mut string).collect();
        build_minimal_modern(98, &strings, &self.body).ok()
    }

    /// The image is the Rust's, in a buffer with one byte to spare.
    fn is_built(&self) -> bool {
        let image = self.theirs().unwrap();
        let mut out = vec![OLD; image.len() + 1];
        self.ours(&mut out) == image.len() as u64
            && out[..image.len()] == image
            && out[image.len()] == OLD
    }

    /// Refused with that number, in a buffer of any length, and nothing is written.
    fn is_refused(&self, number: u64, room: usize) -> bool {
        let mut out = vec![OLD; room];
        self.ours(&mut out) == REFUSED + number && out.iter().all(|byte| *byte == OLD)
    }
}

/// Strings of 254 bytes up to an offset, and then one more of a length.
fn strings(offset: usize, last: usize) -> Job {
    let text = vec![b'x'; offset + last];
    let full = (1..).map(|i| 254 * i).take_while(|end| *end < offset);
    let ends = full.chain([offset, offset + last]).map(|end| end as u32).collect();
    Job { text, ends, body: vec![1, 2, 3] }
}

fn body(length: usize) -> Job {
    Job { text: vec![], ends: vec![], body: vec![0x5c; length] }
}

fn empty_strings(count: usize) -> Job {
    Job { text: vec![], ends: vec![0; count], body: vec![] }
}

fn is_finalized(length: usize) -> bool {
    let image: Vec<u8> = (0..length).map(|i| (i * 31 + i / 127) as u8).collect();
    let mut ours = image.clone();
    let answer = exports::finalize(&mut ours);
    if length > LIMIT {
        return answer == REFUSED + 1 && ours == image;
    }
    answer == length as u64 && ours == finalize_raw_image(image).unwrap()
}

fn main() -> ExitCode {
    let most_strings = (LIMIT - EMPTY) / 4;
    let checks: [(&str, fn(usize) -> bool, usize); 9] = [
        ("finalize at the limit", is_finalized, LIMIT),
        ("finalize past the limit: 1", is_finalized, LIMIT + 1),
        ("a string just before offset 0x800000", |at| strings(at, 254).is_built(), FAR - 1),
        ("a string at offset 0x800000: 12", |at| strings(at, 1).is_refused(12, 300), FAR),
        ("an empty string there too: 12", |at| strings(at, 0).is_refused(12, 300), FAR),
        ("a body up to the limit", |length| body(length).is_built(), LIMIT - EMPTY),
        ("a body past the limit: 11", |length| body(length).is_refused(11, 300), LIMIT - EMPTY + 1),
        ("11 comes before 13", |length| body(length).is_refused(11, 0), LIMIT - EMPTY + 1),
        (
            "empty strings past the limit: 11",
            |count| empty_strings(count).is_refused(11, 300),
            most_strings + 1,
        ),
    ];
    let sizes = checks.iter().map(|(name, holds, size)| (name, holds(*size)));
    let patches = modes::CHECKS.iter().chain(&lists::CHECKS).chain(&reasons::CHECKS);
    let patches = patches.map(|(name, holds)| (name, holds()));
    if let Some((name, _)) = sizes.chain(patches).find(|(_, holds)| !holds) {
        println!("oracle: limits: {name}: differs");
        return ExitCode::FAILURE;
    }
    let (sizes, modes, lists) = (checks.len(), modes::CHECKS.len(), lists::CHECKS.len());
    let reasons = reasons::CHECKS.len();
    println!(
        "oracle: limits: {sizes} inputs of up to 70 MB, {modes} checks of string patches in both modes, {lists} of passes, \
         {reasons} of reasons: as they should be"
    );
    ExitCode::SUCCESS
}
