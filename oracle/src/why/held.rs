//! Each answer is held to the patcher, with room for everything: "the patcher given enough room takes that path". The
//! patcher is the judge of `patches`: in plain mode the Rust on a file that is parsed anew, or its rebuild where document 01
//! asks for one and the Rust writes in place; in even mode the second reading in `job/patch.rs`, which is held to the Rust
//! there.
//! - Refused: with the same number. Of an index that is too short the patcher knows nothing; it is no image that is
//!   refused then.
//! - In place: its image is as long, every string stands where it stood, the string says the value, and no other byte is
//!   another but those of the hash slots, the file length and the footer.
//! - Each other reason: its image is the rebuilt one of the second reading, which there looks at no reason at all.

use super::reading::{Asked, Reason};
use crate::image::layout::*;
use crate::image::reading::Reading;
use crate::image::walk::Located;
use crate::index::reading::{strings, SHORT};
use crate::patches::judgement::judge;
use crate::patches::{Kind, Patch};

/// Whether the patcher does as an answer says.
pub fn is_shown(asked: &Asked, answer: &Result<Reason, u32>) -> bool {
    let Asked { layout, mode, value: new, image, .. } = *asked;
    // No image has a string with so large an id.
    let id = asked.id.min(u32::MAX.into()) as u32;
    let room = usize::MAX;
    let patched =
        judge(&Patch { kind: Kind::ById, mode, layout, id, old: &[], new, image, room }).answer;
    match answer {
        Err(SHORT) => matches!(patched, Ok(_) | Err(7 | 8 | 11 | 12)),
        Err(number) => patched == Err(*number),
        Ok(Reason::InPlace) => patched.is_ok_and(|new| is_in_place(asked, &new)),
        Ok(_) => patched.is_ok() && patched == asked.rebuilt(room),
    }
}

fn is_in_place(asked: &Asked, new: &[u8]) -> bool {
    let Asked { layout, image, .. } = *asked;
    let [old, new] = [image, new].map(|image| Reading { layout, image, slip: None });
    if new.image.len() != old.image.len() || new.refusal() != 0 {
        return false;
    }
    let stands = |string: &Located| (string.start, string.units, string.wide, string.identifier);
    let [before, after] = [&old, &new].map(strings);
    let own = before[asked.id as usize].start as usize;
    let value = own..own + asked.value.len();
    let places = old.places();
    let written = [
        value.clone(),
        places.hashes as usize..places.small as usize,
        FILE_LENGTH..FILE_LENGTH + 4,
        old.footer() as usize..image.len(),
    ];
    let is_written = |at: usize| written.iter().any(|part| part.contains(&at));
    before.iter().map(stands).eq(after.iter().map(stands))
        && &new.image[value] == asked.value
        && (0..image.len()).all(|at| old.image[at] == new.image[at] || is_written(at))
}
