//! Two causes of refusals at once: the number is that of the first, in the order of document 02, No. 1.

use super::files::{pair, YES};
use super::fixed::{Case, End, STRINGS};
use super::words::image;
use super::{Call, Lent};
use crate::image::layout::{self, set_word, word, KINDS, STORAGE};
use crate::image::reading::Reading;

/// A cause of a refusal, in their order.
#[derive(Clone, Copy, PartialEq, Debug)]
pub enum Cause {
    Layout,
    Mode,
    Image(u32),
    Text,
    Ends,
    Work,
    Outside,
    Bytes,
    Twice,
    Unknown,
    Room,
}

use Cause::*;

pub const CAUSES: [Cause; 16] = [
    Layout,
    Mode,
    Image(1),
    Image(2),
    Image(3),
    Image(4),
    Image(5),
    Image(6),
    Text,
    Ends,
    Work,
    Outside,
    Bytes,
    Twice,
    Unknown,
    Room,
];

impl Cause {
    pub fn number(self) -> u32 {
        match self {
            Layout | Mode => 15,
            Image(number) => number,
            Text | Ends | Work | Room => 13,
            Outside | Bytes | Twice => 16,
            Unknown => 14,
        }
    }
}

/// A call that would be accepted, but for these.
fn caused(layout: u8, mode: u8, is_written: bool, causes: &[Cause]) -> Call {
    let mut file = YES.as_bytes().to_vec();
    let mut image = image(layout, STRINGS);
    for cause in causes {
        match cause {
            Image(number) => damage(layout, &mut image, *number),
            // Behind the others, so that a reader that stops at the first meets those before.
            Outside => file.extend(b"x\n"),
            Bytes => file.extend(b"# \xff\n"),
            Twice => file.extend(YES.as_bytes()),
            Unknown => file = [pair("q", "x").as_bytes(), &file].concat(),
            _ => {}
        }
    }
    let file = (!is_written).then_some(file);
    let mut call = Call { file, layout, mode, image, lent: Lent::default() }.lending(900);
    for cause in causes {
        match cause {
            Layout => call.layout = 5,
            Mode => call.mode = 2,
            Text => call.lent.text.truncate(call.lent.text.len() - 1),
            Ends => call.lent.ends.truncate(call.lent.ends.len() - 1),
            Work => call.lent.work.truncate(call.lent.work.len() - 1),
            Room => call.lent.out.truncate(20),
            _ => {}
        }
    }
    call
}

fn damage(layout: u8, image: &mut Vec<u8>, number: u32) {
    let reading = Reading { layout: layout::Layout(layout), image, slip: None };
    let places = reading.places();
    match number {
        1 => image.truncate(147),
        2 => image[3] ^= 1,
        3 => set_word(image, STORAGE, 1 << 20),
        4 => {
            let last = word(image, KINDS) as usize - 1;
            set_word(image, places.kinds as usize + 4 * last, 2);
        }
        5 => image[places.storage as usize] |= 0x80,
        _ => {
            let at = layout::Layout(layout).debug();
            set_word(image, at, 1);
        }
    }
}

/// Each cause alone, and each two that can be at once.
pub fn orders(layout: layout::Layout, mode: u8) -> Vec<Case> {
    let mut cases = vec![];
    for (i, first) in CAUSES.into_iter().enumerate() {
        for second in &CAUSES[i..] {
            // Two numbers of an image would have to be put there at once; an image that is cut has room for none.
            let is_two = matches!((first, second), (Image(one), Image(other)) if one != *other);
            if is_two {
                continue;
            }
            for is_written in [false, true] {
                let is_of_file =
                    |cause| matches!(cause, Mode | Text | Ends | Outside | Bytes | Twice | Unknown);
                if is_written && (is_of_file(first) || is_of_file(*second)) {
                    continue;
                }
                let both = [first, *second];
                let causes = if first == *second { &both[..1] } else { &both };
                let call = caused(layout.0, mode, is_written, causes);
                let name = format!(
                    "{first:?} and {second:?}, {}",
                    if is_written { "written" } else { "read" }
                );
                cases.push(Case { name, call, end: End::Refused(first.number()) });
            }
        }
    }
    cases
}
