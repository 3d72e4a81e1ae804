//! Equal strings stored once: `bench-patches ours|theirs repack SHAPE COUNT REPEATS`. theirs is the judge's second reading.

use super::{more, sum};
use crate::image::{image, shape};
use oracle::image::layout::Layout;
use oracle::job::packing::Mode;
use oracle::repack::reading::{Asked, Packer};

extern "C" {
    fn nepuladrim_repack(
        image: *const u8,
        length: usize,
        layout: u8,
        mode: u8,
        work: *mut u32,
        words: usize,
        out: *mut u8,
        room: usize,
    ) -> u64;
}

/// The words to work in, for each string.
const WORDS: usize = 5;

fn ours(image: &[u8], layout: u8, work: &mut [u32], out: &mut [u8]) -> u64 {
    let (from, to) = ((image.as_ptr(), image.len()), (out.as_mut_ptr(), out.len()));
    let lent = (work.as_mut_ptr(), work.len());
    unsafe { nepuladrim_repack(from.0, from.1, layout, 0, lent.0, lent.1, to.0, to.1) }
}

fn theirs(image: &[u8], layout: u8, work: &mut [u32], out: &mut [u8]) -> u64 {
    let asked = Asked { layout: Layout(layout), mode: Mode::Plain, image };
    Packer(None).repack(&asked, work, out).unwrap().into()
}

/// What is made, or for no repeats the image, is summed up over as many bytes.
pub fn run(words: &[String]) {
    let (shape, count): (_, usize) = (shape(&words[3]), words[4].parse().unwrap());
    let image = image(&shape, count, count, more(&words[3]));
    let (mut work, mut out) = (vec![0; WORDS * count], image.clone());
    let repack = if words[1] == "ours" { ours } else { theirs };
    let mut length = image.len() as u64;
    if words[5] == "1" {
        length = repack(&image, shape.layout, &mut work, &mut out);
    }
    println!("{} {}", length, sum(&out));
}
