//! Many strings in one pass: `bench-patches ours|theirs pass|places SHAPE COUNT EDITS REPEATS`. pass: values that have 5 bytes
//! more each, so that all is rebuilt; places: values of equal length, all in place. theirs is the judge's second reading.

use super::{more, sum, Job};
use crate::image::{image, shape};
use oracle::image::layout::Layout;
use oracle::image::reading::Reading;
use oracle::job::packing::{Mode, Packing};
use oracle::job::pass;
use oracle::patches::parsed::parsed;

extern "C" {
    fn nepuladrim_patch_strings(
        image: *const u8,
        length: usize,
        layout: u8,
        mode: u8,
        ids: *const u32,
        count: usize,
        text: *const u8,
        text_length: usize,
        ends: *const u32,
        ends_count: usize,
        out: *mut u8,
        room: usize,
    ) -> u64;
}

/// The edits of an image: ids, the values as one text, and where each ends.
#[derive(Default)]
pub struct List {
    pub ids: Vec<u32>,
    pub text: Vec<u8>,
    pub ends: Vec<u32>,
}

impl List {
    /// So many edits of narrow strings all over the image, in no order: the numbers from 0 on, by a stride. Each value has so
    /// many bytes more than the string.
    pub fn of(reading: &Reading, edits: usize, more: usize) -> List {
        let strings = reading.strings();
        let mut list = List::default();
        for j in 0..edits {
            let place = j * 7_919 % edits;
            let id = place * strings.len() / edits;
            // No two wide strings stand side by side, and no two edits.
            let id = id - usize::from(strings[id].wide);
            let size = (strings[id].end - strings[id].start) as usize + more;
            list.ids.push(id as u32);
            list.text.extend((0..size).map(|i| b'A' + ((i + j) % 26) as u8));
            list.ends.push(list.text.len() as u32);
        }
        list
    }

    /// Our answer: a length, or 2^32 and the number of a refusal.
    fn ours(&self, reading: &Reading, mode: Mode, out: &mut [u8]) -> u64 {
        let (ids, text, ends) = (&self.ids, &self.text, &self.ends);
        unsafe {
            nepuladrim_patch_strings(
                reading.image.as_ptr(),
                reading.image.len(),
                reading.layout.0,
                (mode == Mode::Even).into(),
                ids.as_ptr(),
                ids.len(),
                text.as_ptr(),
                text.len(),
                ends.as_ptr(),
                ends.len(),
                out.as_mut_ptr(),
                out.len(),
            )
        }
    }

    /// The second reading's image.
    pub fn theirs(&self, reading: &Reading, mode: Mode) -> Vec<u8> {
        let list = pass::List { ids: self.ids.clone(), text: &self.text, ends: self.ends.clone() };
        let packing = Packing { mode, slip: None };
        pass::pass(reading.layout, reading.image, u64::MAX, &list, packing, None).unwrap()
    }

    /// The last image of the single patches in list order, each on a file that is parsed anew: the Rust's in plain mode.
    pub fn steps(&self, reading: &Reading, mode: Mode) -> Vec<u8> {
        let mut image = reading.image.to_vec();
        let mut start = 0;
        for (id, end) in self.ids.iter().zip(&self.ends) {
            let new = &self.text[start..*end as usize];
            start = *end as usize;
            let layout = reading.layout.0;
            let job = Job { layout, mode, image: &image, id: *id, new, is_body: false };
            image = job.theirs(&mut parsed(&job.reading()));
        }
        image
    }

    /// Enough room for each value, a gap before each string, and the padding.
    fn room(&self, reading: &Reading) -> Vec<u8> {
        vec![0; reading.image.len() + self.text.len() + reading.strings().len() + 64]
    }
}

pub fn run(words: &[String]) {
    let number = |i: usize| -> usize { words[i].parse().unwrap() };
    let (shape, count) = (shape(&words[3]), number(4));
    let image = image(&shape, count, count, more(&words[3]));
    let reading = Reading { layout: Layout(shape.layout), image: &image, slip: None };
    let list = List::of(&reading, number(5), if words[2] == "places" { 0 } else { 5 });
    // As for one patch, both runs start with the same and end with a sum.
    let mut out = list.room(&reading);
    let mut made = image.clone();
    match (words[1].as_str(), words[6].as_str()) {
        (_, "0") => {}
        ("ours", "1") => {
            let length = list.ours(&reading, Mode::Plain, &mut out) as usize;
            made = out[..length].to_vec();
        }
        ("theirs", "1") => made = list.theirs(&reading, Mode::Plain),
        _ => panic!("ours or theirs, and 0 or 1 repeats"),
    }
    println!("{} {}", image.len(), sum(&made));
}

/// 400 edits of images with 1,000 strings are what 400 single patches make of them, by a rebuild and in place, in both modes.
pub fn compare() {
    let edits = 400;
    for (name, more_bytes) in [("mixed", 5), ("modern", 5), ("names", 5), ("odd", 5), ("names", 0)]
    {
        let (shape, count) = (shape(name), 1_000);
        let image = image(&shape, count, count, more(name));
        let reading = Reading { layout: Layout(shape.layout), image: &image, slip: None };
        let list = List::of(&reading, edits, more_bytes);
        for mode in [Mode::Plain, Mode::Even] {
            let mut out = list.room(&reading);
            let ours = list.ours(&reading, mode, &mut out) as usize;
            assert!(
                out.get(..ours) == Some(&list.steps(&reading, mode)[..]),
                "{name}, {more_bytes}: {ours}"
            );
        }
    }
    println!(
        "bench: 10 passes with {edits} edits are as many single patches, the Rust's in plain mode"
    );
}
