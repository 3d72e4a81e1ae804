// Patches an image laid out as compilers lay them out, with as many strings as functions, 1 MiB for 10,000 of each:
//   bench-patches ours|theirs place|rebuild|even|equal|body SHAPE COUNT REPEATS
// prints the length of the image and a sum of the result's bytes. The Rust's file is parsed before, also for no repeats, so
// that what REPEATS adds is its patch call alone. even: a rebuild in even mode, where theirs is the judge's second reading.
// In an image with bodies, which is as mixed, or with books, which is as texts, 40,000 of each make 8 MiB.
//   bench-patches ours|theirs pass|places SHAPE COUNT EDITS REPEATS
// does so with many edits in one pass.
//   bench-patches ours|theirs po|po-places SHAPE COUNT PAIRS ample|exact|short REPEATS
//   bench-patches ours|theirs extract SHAPE COUNT REPEATS
// read a translators' file into an image, and write one from it.
//   bench-patches compare
// holds ours to theirs byte for byte on images too long for a stream of calls.

#[path = "../../src/image.rs"]
mod image;
mod large;
mod pass;
mod po;

use hbc_decomp::opcode::BytecodeFormat;
use hbc_decomp::write::patch::{patch_function_bytes, patch_string_by_id, PatchOptions};
use image::{image, shape};
use oracle::image::layout::Layout;
use oracle::image::reading::Reading;
use oracle::job::packing::Mode;
use oracle::patches::parsed::parsed;
use oracle::patches::{even, Kind, Patch};

extern "C" {
    fn nepuladrim_patch_string_by_id(
        image: *const u8,
        length: usize,
        layout: u8,
        mode: u8,
        id: u32,
        value: *const u8,
        value_length: usize,
        out: *mut u8,
        room: usize,
    ) -> u64;
    fn nepuladrim_patch_function_bytes(
        image: *const u8,
        length: usize,
        layout: u8,
        id: u32,
        body: *const u8,
        body_length: usize,
        out: *mut u8,
        room: usize,
    ) -> u64;
}

/// What bodies have besides, so that 10,000 functions and strings make 1 MiB, or 40,000 make 8 MiB.
fn more(shape: &str) -> usize {
    match shape {
        "modern" => 18,
        "bodies" | "books" => 143,
        _ => 38,
    }
}

pub struct Job<'a> {
    pub layout: u8,
    pub mode: Mode,
    pub image: &'a [u8],
    pub id: u32,
    /// A value, or a body.
    pub new: &'a [u8],
    pub is_body: bool,
}

impl Job<'_> {
    /// Our answer: a length, or 2^32 and the number of a refusal.
    pub fn ours(&self, out: &mut [u8]) -> u64 {
        let (layout, id) = (self.layout, self.id);
        let (image, length) = (self.image.as_ptr(), self.image.len());
        let (new, size) = (self.new.as_ptr(), self.new.len());
        let (out, room) = (out.as_mut_ptr(), out.len());
        unsafe {
            if self.is_body {
                return nepuladrim_patch_function_bytes(
                    image, length, layout, id, new, size, out, room,
                );
            }
            let mode = (self.mode == Mode::Even).into();
            nepuladrim_patch_string_by_id(image, length, layout, mode, id, new, size, out, room)
        }
    }

    pub fn reading(&self) -> Reading<'_> {
        Reading { layout: Layout(self.layout), image: self.image, slip: None }
    }

    /// The Rust's image, or the second reading's in the even mode, which the Rust has not.
    pub fn theirs(&self, file: &mut hbc_decomp::file::BytecodeFile) -> Vec<u8> {
        if self.is_body {
            return patch_function_bytes(file, self.id, self.new).unwrap();
        }
        if self.mode == Mode::Even {
            let Job { mode, image, id, new, .. } = *self;
            let (kind, layout, room) = (Kind::ById, Layout(self.layout), usize::MAX);
            let patch = Patch { kind, mode, layout, id, old: &[], new, image, room };
            return even::read(&patch, None).unwrap();
        }
        let (format, options) = (BytecodeFormat { definitions: vec![] }, PatchOptions::default());
        let value = std::str::from_utf8(self.new).unwrap();
        patch_string_by_id(file, &format, self.id, value, &options).unwrap()
    }
}

fn sum(bytes: &[u8]) -> u64 {
    bytes.iter().fold(0, |sum, byte| sum.wrapping_mul(31).wrapping_add(u64::from(*byte)))
}

fn main() {
    let words: Vec<String> = std::env::args().collect();
    if words[1] == "compare" {
        large::compare();
        pass::compare();
        return po::compare();
    }
    match words[2].as_str() {
        "pass" | "places" => pass::run(&words),
        "po" | "po-places" => po::read(&words),
        "extract" => po::write(&words),
        _ => run(&words),
    }
}

/// One patch.
fn run(words: &[String]) {
    let (shape, count): (_, usize) = (shape(&words[3]), words[4].parse().unwrap());
    let image = image(&shape, count, count, more(&words[3]));
    let middle = count as u32 / 2;
    let reading = Reading { layout: Layout(shape.layout), image: &image, slip: None };
    let size = match words[2].as_str() {
        "place" | "rebuild" | "even" => {
            let string = &reading.strings()[middle as usize];
            (string.end - string.start) as usize + if words[2] == "place" { 0 } else { 5 }
        }
        _ => {
            let (begin, end) = reading.function(middle as usize).body;
            (end - begin) as usize + if words[2] == "equal" { 0 } else { 4 }
        }
    };
    let new = vec![b'x'; size];
    let is_body = matches!(words[2].as_str(), "equal" | "body");
    let mode = if words[2] == "even" { Mode::Even } else { Mode::Plain };
    let job = Job { layout: shape.layout, mode, image: &image, id: middle, new: &new, is_body };
    // Both sides start with the same, and end with a sum over as many bytes, for no repeats too. Each string may have a gap.
    let mut out = vec![0; image.len() + 64 + count];
    let mut made = image.clone();
    let mut file = parsed(&reading);
    match (words[1].as_str(), words[5].as_str()) {
        (_, "0") => {}
        ("ours", "1") => {
            let length = job.ours(&mut out) as usize;
            made = out[..length].to_vec();
        }
        ("theirs", "1") => made = job.theirs(&mut file),
        _ => panic!("ours or theirs, and 0 or 1 repeats: a file is parsed for one patch"),
    }
    println!("{} {}", image.len(), sum(&made));
}
