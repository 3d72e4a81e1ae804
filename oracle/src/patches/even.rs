//! String patches in the even mode of document 02, No. 2, which the Rust has not: the answer is that of the second
//! reading in `job/patch.rs`. In plain mode that reading has to give the Rust's answer; where a gap is needed, its even
//! image has to be what the sentence says, and elsewhere the Rust's.

use super::judgement::{self, unlisted, Judgement};
use super::{texts, Kind, Patch, LONGEST};
use crate::image::layout::STORAGE;
use crate::image::reading::{Reading, Stored};
use crate::job::packing::{Mode, Packing, Slip};
use crate::job::patch as job;

type Answer = Result<Vec<u8>, u32>;

/// The second reading's answer to a string patch, in its mode, with a mistake on purpose or with none.
pub fn read(patch: &Patch, slip: Option<Slip>) -> Answer {
    let (value, packing) = (patch.new.to_vec(), Packing { mode: patch.mode, slip });
    let text = match patch.kind {
        Kind::ByValue => job::Patch::Replace { old: patch.old.to_vec(), value, packing },
        _ => job::Patch::Text { id: patch.id, value, packing },
    };
    job::patch(patch.layout, patch.image, patch.room as u64, &text)
}

pub fn judge(patch: &Patch) -> Judgement {
    // What has no room is compared too, as far as a call could carry it.
    let roomy = Patch { room: patch.room.max(LONGEST), ..*patch };
    let plain = Patch { mode: Mode::Plain, ..roomy };
    let Judgement { answer, departure } = judgement::judge(&plain);
    let even = read(&roomy, None);
    if read(&plain, None) != answer || !is_even_form(patch, &answer, &even) {
        return unlisted();
    }
    Judgement { answer: read(patch, None), departure }
}

/// Whether an answer can be the even mode's to a patch that the plain mode answers so: the same one in place and where no
/// wide string is at an odd place, else a longer image, or one of the same length.
fn is_even_form(patch: &Patch, plain: &Answer, even: &Answer) -> bool {
    match (plain, even) {
        (Ok(plain), even) if patch.is_in_place() || !has_odd(patch, plain) => {
            even.as_ref() == Ok(plain)
        }
        (Ok(plain), Ok(even)) => even.len() >= plain.len() && is_padded(patch, plain, even),
        // The gaps go past a limit.
        (Ok(_) | Err(13), Err(number)) => matches!(number, 11..=13),
        (Err(12), Err(number)) => matches!(number, 11 | 12),
        (plain, even) => plain == even,
    }
}

fn has_odd(patch: &Patch, image: &[u8]) -> bool {
    let reading = Reading { image, ..patch.reading() };
    reading.strings().iter().any(|string| string.wide && string.start % 2 == 1)
}

/// The strings of the plain image, and the sentence itself: "a wide string starts at an even storage offset, with one
/// zero byte before it when needed, counted in storage size and in later offsets".
fn is_padded(patch: &Patch, plain: &[u8], even: &[u8]) -> bool {
    let [plain, even] = [plain, even].map(|image| Reading { image, ..patch.reading() });
    let storage = even.places().storage;
    let mut next = 0;
    let mut follows = |string: &Stored| {
        let before = (storage + next) as usize..(storage + string.start) as usize;
        let needed = &[0][..usize::from(string.wide && next % 2 == 1)];
        next = string.end;
        even.image.get(before) == Some(needed)
    };
    let packed = even.strings().iter().all(&mut follows) && next == even.count(STORAGE).into();
    let bytes = |reading: &Reading| {
        let strings = reading.strings();
        let string = |string: &Stored| (string.wide, texts::bytes(reading, string).to_vec());
        strings.iter().map(string).collect::<Vec<_>>()
    };
    packed && bytes(&plain) == bytes(&even)
}
