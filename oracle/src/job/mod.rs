//! Jobs: **a second reading** of document 01, "Programs", over images made at random.

pub mod made;
pub mod packing;
pub mod pass;
pub mod patch;
pub mod wrong;

use crate::image::layout::Layout;
use crate::image::reading::Reading;
use packing::Packing;
use patch::{finish, patch, Patch};

const IMAGE_MOST: usize = 65_536;
const ROOM: u64 = 65_536;
const MALFORMED: u32 = 15;

/// What the job program writes for an input.
pub fn answer(input: &[u8]) -> Vec<u8> {
    match run(input) {
        Ok(image) => image,
        Err((place, number)) => format!("refused {place} {number}\n").into_bytes(),
    }
}

/// The last image, or the place and the number of the first record that is refused.
pub fn run(input: &[u8]) -> Result<Vec<u8>, (u64, u32)> {
    let mut input = input;
    let (layout, mut image) = image_record(&mut input).ok_or((0, MALFORMED))?;
    match (Reading { layout, image: &image, slip: None }).refusal() {
        0 => {}
        number => return Err((0, number)),
    }
    if input.is_empty() {
        return Ok(finish(image));
    }
    let mut place = 0;
    while !input.is_empty() {
        place += 1;
        let record = patch_record(&mut input).ok_or((place, MALFORMED))?;
        image = patch(layout, &image, ROOM, &record).map_err(|number| (place, number))?;
    }
    Ok(image)
}

/// The next bytes, if so many are left.
fn next<'a>(input: &mut &'a [u8], count: usize) -> Option<&'a [u8]> {
    if count > input.len() {
        return None;
    }
    let (bytes, rest) = input.split_at(count);
    *input = rest;
    Some(bytes)
}

fn little(bytes: &[u8]) -> usize {
    bytes.iter().rev().fold(0, |number, byte| number << 8 | usize::from(*byte))
}

fn image_record(input: &mut &[u8]) -> Option<(Layout, Vec<u8>)> {
    let mark = next(input, 2)?;
    let layout = next(input, 1)?[0];
    let length = little(next(input, 4)?);
    if mark != b"IM" || layout > 4 || length > IMAGE_MOST {
        return None;
    }
    Some((Layout(layout), next(input, length)?.to_vec()))
}

fn patch_record(input: &mut &[u8]) -> Option<Patch> {
    let mark = next(input, 2)?.to_vec();
    let id = little(next(input, 4)?) as u32;
    let length = little(next(input, 2)?);
    let bytes = next(input, length)?.to_vec();
    match &mark[..] {
        b"ST" => Some(Patch::Text { id, value: bytes, packing: Packing::PLAIN }),
        b"FB" => Some(Patch::Body { id, bytes }),
        _ => None,
    }
}
