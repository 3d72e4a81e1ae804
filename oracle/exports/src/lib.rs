//! The exports of crate `hbc`, as hbc.h has them, each made by the program in `calls.c`.

mod call;
pub mod po;
pub mod why;

use call::{Call, Export};
use oracle::job::packing::Mode;
use oracle::patches::{Kind, Patch};

/// What an answer adds to the number of a refusal.
pub const REFUSED: u64 = 1 << 32;
/// What a lent buffer holds before a call.
pub const OLD: u8 = 0xa5;

pub fn finalize(image: &mut [u8]) -> u64 {
    let inputs = [&[][..]; 4];
    Call { export: Export::Finalize, layout: 0, mode: 0, number: 0, inputs }.make(image)
}

pub fn build(version: u32, text: &[u8], ends: &[u32], body: &[u8], out: &mut [u8]) -> u64 {
    let inputs = [text, &bytes(ends), body, &[]];
    Call { export: Export::Build, layout: 0, mode: 0, number: version, inputs }.make(out)
}

/// A string patch, in a lent buffer.
fn patched(patch: &Patch, out: &mut [u8]) -> u64 {
    let Patch { id, old, new, image, .. } = *patch;
    let (layout, mode) = (patch.layout.0, u8::from(patch.mode == Mode::Even));
    let call = |export, number, inputs| Call { export, layout, mode, number, inputs };
    match patch.kind {
        Kind::ById => call(Export::PatchById, id, [image, new, &[], &[]]).make(out),
        Kind::ByValue => call(Export::PatchByValue, 0, [image, old, new, &[]]).make(out),
        Kind::Pass => {
            let list = patch.list();
            let [ids, ends] = [list.ids, list.ends].map(|words| bytes(&words));
            call(Export::PatchInPass, 0, [image, &ids, new, &ends]).make(out)
        }
        Kind::Body => panic!("a body patch is not asked here"),
    }
}

fn bytes(words: &[u32]) -> Vec<u8> {
    words.iter().flat_map(|word| word.to_le_bytes()).collect()
}

/// We answer so, in the room of the patch: the image, and all bytes behind it stay, or the number, and all bytes stay.
pub fn is_answered(patch: &Patch, theirs: &Result<Vec<u8>, u32>) -> bool {
    let (answer, image) = match theirs {
        Ok(image) => (image.len() as u64, &image[..]),
        Err(number) => (REFUSED + u64::from(*number), &[][..]),
    };
    let mut out = vec![OLD; patch.room];
    patched(patch, &mut out) == answer
        && out.starts_with(image)
        && out[image.len()..].iter().all(|byte| *byte == OLD)
}
