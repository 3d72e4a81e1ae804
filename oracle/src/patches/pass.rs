//! The pass over a list of edits of document 02, No. 4, which the Rust has not: the answer is that of the second reading in
//! `job/pass.rs`. It is held to the law of single steps: where every single patch in list order is accepted, its image has to
//! be the last one. A single patch is the Rust's on a file that is parsed anew, or in even mode the second reading's.

use std::collections::BTreeMap;

use super::judgement::{self, unlisted, Departure, Judgement};
use super::rust::{self, Rust};
use super::{texts, Kind, Patch, LONGEST};
use crate::image::layout::{word, STORAGE};
use crate::image::reading::{Reading, Stored};
use crate::job::packing::{self, Mode, Packing};
use crate::job::pass::{self, Edit};

type Answer = Result<Vec<u8>, u32>;

/// The second reading's answer, with a mistake on purpose or with none.
pub fn read(patch: &Patch, packing: Option<packing::Slip>, slip: Option<pass::Slip>) -> Answer {
    let packing = Packing { mode: patch.mode, slip: packing };
    pass::pass(patch.layout, patch.image, patch.room as u64, &patch.list(), packing, slip)
}

pub fn judge(patch: &Patch) -> Judgement {
    // What has no room is compared too, as far as a call could carry it.
    let roomy = Patch { room: patch.room.max(LONGEST), ..*patch };
    let answer = read(&roomy, None, None);
    let (is_held, departure) = held(&roomy, &answer);
    let answer = match answer {
        Ok(image) if image.len() > patch.room => Err(13),
        answer => answer,
    };
    if !is_held || read(patch, None, None) != answer {
        return unlisted();
    }
    Judgement { answer, departure }
}

/// Whether an answer can be the pass's, and what of the Rust's departures its single steps show.
fn held(patch: &Patch, answer: &Answer) -> (bool, Option<Departure>) {
    // Of single steps 02 speaks where there is a list of different ids.
    if matches!(answer, Err(1..=6 | 15 | 17)) {
        return (true, None);
    }
    let list = patch.list();
    let edits = list.edits(None).unwrap();
    if edits.is_empty() {
        let whole = Rust::Made(answer.clone().unwrap_or_default());
        return (whole == rust::finalized(patch.image.to_vec()), None);
    }
    let Judgement { answer: last, departure } = steps(patch, &edits);
    let is_held = match (answer, &last) {
        (Ok(image), Ok(last)) => image == last,
        // A limit is met halfway.
        (Ok(image), Err(11..=13)) => is_as_listed(patch, &edits, image),
        (Err(7), Err(number)) => matches!(number, 7 | 8 | 11..=13),
        (Err(8), Err(number)) => matches!(number, 8 | 11..=13),
        (Err(11..=13), Err(number)) => matches!(number, 11..=13),
        _ => false,
    };
    (is_held, departure)
}

/// The image after the single patches in list order, or the first refusal among them.
fn steps(patch: &Patch, edits: &[Edit]) -> Judgement {
    let mut image = patch.image.to_vec();
    let mut departure = None;
    for (id, value) in edits {
        let step =
            Patch { kind: Kind::ById, id: *id, old: &[], new: value, image: &image, ..*patch };
        let judged = judgement::judge(&step);
        departure = departure.or(judged.departure);
        match judged.answer {
            Ok(next) => image = next,
            answer => return Judgement { answer, departure },
        }
    }
    Judgement { answer: Ok(image), departure }
}

/// Where no single step can be asked: the image has the strings that the list asks for, one behind the other as the mode
/// packs them, the hash of each edited identifier, and the bodies as they were.
fn is_as_listed(patch: &Patch, edits: &[Edit], image: &[u8]) -> bool {
    let (old, new) = (patch.reading(), Reading { image, ..patch.reading() });
    if new.refusal() != 0 || new.strings().len() != old.strings().len() {
        return false;
    }
    let mut next = 0;
    let mut follows = |string: &Stored| {
        let gap = patch.mode == Mode::Even && string.wide && next % 2 == 1;
        let is_next = string.start == next + u64::from(gap);
        next = string.end;
        is_next
    };
    let is_packed = new.strings().iter().all(&mut follows) && next == new.count(STORAGE).into();
    let bodies = |reading: &Reading| {
        let body = |(start, end)| reading.image[start as usize..end as usize].to_vec();
        reading.functions().map(|function| body(function.body)).collect::<Vec<_>>()
    };
    is_packed && bodies(&old) == bodies(&new) && has_values(&old, &new, edits)
}

/// Each string has its new value, with the hash of an identifier, or the old one.
fn has_values(old: &Reading, new: &Reading, edits: &[Edit]) -> bool {
    let values: BTreeMap<usize, &[u8]> = edits.iter().map(|(id, v)| (*id as usize, *v)).collect();
    let (identifiers, hashes) = (texts::identifiers(new), new.places().hashes as usize);
    let mut rank = 0;
    let mut is_right = |(id, (before, after)): (usize, (&Stored, &Stored))| {
        let slot = hashes + 4 * rank;
        rank += usize::from(identifiers[id]);
        let Some(value) = values.get(&id).map(|value| std::str::from_utf8(value).unwrap()) else {
            return before.wide == after.wide
                && texts::bytes(old, before) == texts::bytes(new, after)
                && (!identifiers[id] || word(old.image, slot) == word(new.image, slot));
        };
        after.wide != value.is_ascii()
            && texts::units(new, after) == value.encode_utf16().collect::<Vec<_>>()
            && (!identifiers[id] || word(new.image, slot) == texts::hash(value))
    };
    old.strings().iter().zip(&new.strings()).enumerate().all(&mut is_right)
}
