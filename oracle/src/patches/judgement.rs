//! The answer of a patch that document 01 asks for. Refusals are a second reading of the paper; the image
//! of a patch that is accepted is the Rust's. Then the Rust's own answer is held to it: it is that answer,
//! or one of the departures that the paper lists, recognised as exactly that. The even mode of document 02
//! has a judge of its own, and so has its pass.

use super::rust::{self, Rust};
use super::{even, pass, texts};
use super::{Kind, Patch};
use crate::image::layout::{word, FUNCTIONS};
use crate::image::reading::{Function, Reading};
use crate::job::packing::Mode;

const LIMIT: u64 = 67_108_864;
/// The largest value of a small record's offset and info.
const FIELD: u64 = 33_554_431;

/// The status where the Rust's answer is neither the paper's nor a listed departure. No program gives it.
pub const UNLISTED: u32 = 254;

pub struct Judgement {
    pub answer: Result<Vec<u8>, u32>,
    pub departure: Option<Departure>,
}

/// What the paper lists, where it shows in one call.
#[derive(Clone, Copy, PartialEq, Debug)]
pub enum Departure {
    AccentedInPlace,
    WideOverlapIgnored,
    DecodedTextCompared,
    SharedBodyEdited,
    EmptyBodyInside,
    InfoInside,
    DebugBefore,
    EmptyBodyGrown,
    NoSizeLimit,
    FieldMasked,
}

pub const DEPARTURES: [Departure; 10] = [
    Departure::AccentedInPlace,
    Departure::WideOverlapIgnored,
    Departure::DecodedTextCompared,
    Departure::SharedBodyEdited,
    Departure::EmptyBodyInside,
    Departure::InfoInside,
    Departure::DebugBefore,
    Departure::EmptyBodyGrown,
    Departure::NoSizeLimit,
    Departure::FieldMasked,
];

fn agreed(answer: Result<Vec<u8>, u32>) -> Judgement {
    Judgement { answer, departure: None }
}

fn departed(answer: Result<Vec<u8>, u32>, departure: Departure) -> Judgement {
    Judgement { answer, departure: Some(departure) }
}

pub fn unlisted() -> Judgement {
    agreed(Err(UNLISTED))
}

/// A refusal with a number, in which the Rust has to be as stated.
fn refused(number: u32, as_stated: bool, departure: Option<Departure>) -> Judgement {
    if !as_stated {
        return unlisted();
    }
    Judgement { answer: Err(number), departure }
}

pub fn judge(patch: &Patch) -> Judgement {
    if patch.kind == Kind::Pass {
        return pass::judge(patch);
    }
    if patch.mode == Mode::Even {
        return even::judge(patch);
    }
    let reading = patch.reading();
    match reading.refusal() {
        0 if patch.kind == Kind::Body => judge_body(patch, &reading),
        0 => judge_string(patch, &reading),
        number => agreed(Err(number)),
    }
}

// ---- Strings.

fn judge_string(patch: &Patch, reading: &Reading) -> Judgement {
    let strings = reading.strings();
    let by_value = patch.kind == Kind::ByValue;
    if !by_value && patch.id as usize >= strings.len() {
        // A value that is no UTF-8 cannot be asked of the Rust.
        let value = std::str::from_utf8(patch.new).unwrap_or("");
        return refused(7, rust::by_id(reading, patch.id, value) == Rust::Failed, None);
    }
    let old = if by_value { patch.old } else { &[] };
    let (Ok(old), Ok(new)) = (std::str::from_utf8(old), std::str::from_utf8(patch.new)) else {
        return agreed(Err(8));
    };
    if !by_value {
        let answer = by_id(patch, reading, patch.id as usize, new);
        return held(answer, reading, patch.id, new, rust::by_id(reading, patch.id, new));
    }
    let found = texts::lowest(reading, old);
    let decodes = |string| String::from_utf16_lossy(&texts::units(reading, string)) == old;
    let decoded = strings.iter().position(decodes);
    let answer = match found {
        Some(id) => by_id(patch, reading, id, new),
        None => Err(14),
    };
    let plain = rust::by_value(reading, old, new);
    if found != decoded {
        // It finds a string by its decoded text, in which what is no character is U+FFFD.
        let Some(id) = decoded else { return unlisted() };
        let as_stated = plain == rust::by_id(reading, id as u32, new);
        return if as_stated {
            departed(answer, Departure::DecodedTextCompared)
        } else {
            unlisted()
        };
    }
    match found {
        Some(id) => held(answer, reading, id as u32, new, plain),
        None => refused(14, plain == Rust::Failed, None),
    }
}

/// The paper's answer for a string that there is, and a value that is UTF-8.
fn by_id(patch: &Patch, reading: &Reading, id: usize, value: &str) -> Result<Vec<u8>, u32> {
    let strings = reading.strings();
    let length = patch.image.len() as u64;
    if texts::fits_in_place(&strings, id, value) {
        return roomed(patch, length, || rust::by_id(reading, id as u32, value));
    }
    let old_tail = reading.places().tail;
    let new_tail = texts::rebuilt_tail(reading, &strings, id, value);
    if length - old_tail + new_tail > LIMIT {
        return Err(11);
    }
    let is_over = |place: u64| place - old_tail + new_tail > FIELD;
    let small = |function: &Function| function.header.is_none();
    if reading
        .functions()
        .filter(small)
        .any(|function| is_over(function.body.0) || (function.info != 0 && is_over(function.info)))
    {
        return Err(12);
    }
    let new_length = length - old_tail + new_tail;
    roomed(patch, new_length, || rust::rebuilt(reading, id as u32, value))
}

/// 13, or the image that the Rust makes, if it has the length that the paper gives it.
fn roomed(patch: &Patch, length: u64, made: impl FnOnce() -> Rust) -> Result<Vec<u8>, u32> {
    if (patch.room as u64) < length {
        return Err(13);
    }
    match made() {
        Rust::Made(image) if image.len() as u64 == length => Ok(image),
        _ => Err(UNLISTED),
    }
}

/// The paper's answer, with the Rust's own held to it.
fn held(
    answer: Result<Vec<u8>, u32>,
    reading: &Reading,
    id: u32,
    value: &str,
    plain: Rust,
) -> Judgement {
    let Rust::Made(made) = &plain else { return unlisted() };
    match &answer {
        Ok(image) if image == made => return agreed(answer),
        Err(11) => return refused(11, made.len() as u64 > LIMIT, Some(Departure::NoSizeLimit)),
        Err(12) => return refused(12, is_masked(reading, made), Some(Departure::FieldMasked)),
        // It grows a vector. What it writes there is judged where there is room.
        Err(13) => return agreed(answer),
        _ => {}
    }
    // It tests only whether narrow entries overlap, and counts the bytes of the UTF-8.
    let strings = reading.strings();
    let own = &strings[id as usize];
    let in_its_place = !own.wide
        && own.end - own.start == value.len() as u64
        && !texts::is_overlapped(&strings, id as usize, |other| !other.wide)
        && plain == rust::written_in_place(reading, id as usize, value);
    match (in_its_place, value.is_ascii()) {
        (false, _) => unlisted(),
        (true, false) => departed(answer, Departure::AccentedInPlace),
        (true, true) => departed(answer, Departure::WideOverlapIgnored),
    }
}

/// A small record of the result has an offset or an info place that was cut to its field.
fn is_masked(old: &Reading, made: &[u8]) -> bool {
    let new = Reading { layout: old.layout, image: made, slip: None };
    let delta = new.places().tail - old.places().tail;
    let ids = 0..word(old.image, FUNCTIONS) as usize;
    ids.map(|id| (old.function(id), new.function(id))).any(|(before, after)| {
        let is_cut = |before: u64, after: u64| {
            before + delta > FIELD && after == (before + delta) % (FIELD + 1)
        };
        before.header.is_none()
            && (is_cut(before.body.0, after.body.0)
                || (before.info != 0 && is_cut(before.info, after.info)))
    })
}

// ---- Bodies.

fn judge_body(patch: &Patch, reading: &Reading) -> Judgement {
    let functions: Vec<Function> = reading.functions().collect();
    let id = patch.id as usize;
    let plain = rust::body(reading, patch.id, patch.new);
    if id >= functions.len() {
        return refused(7, plain == Rust::Failed, None);
    }
    let (begin, threshold) = functions[id].body;
    let size = patch.new.len() as u64;
    let way = in_the_way(reading, &functions, id);
    let length = patch.image.len() as u64 + begin + size - threshold;
    if way.is_some() || (begin == threshold && size != 0) || !fits(reading, &functions, id, size) {
        let as_stated = plain == rust::forced(reading, id, patch.new);
        return match way {
            Some(_) => refused(9, as_stated, way),
            None if begin == threshold => refused(10, as_stated, Some(Departure::EmptyBodyGrown)),
            None if length > LIMIT => refused(11, as_stated, Some(Departure::NoSizeLimit)),
            None => refused(12, as_stated, Some(Departure::FieldMasked)),
        };
    }
    if length > LIMIT {
        return refused(
            11,
            plain == rust::forced(reading, id, patch.new),
            Some(Departure::NoSizeLimit),
        );
    }
    agreed(roomed(patch, length, || plain))
}

/// "9 is given when another body shares a byte with it, an empty one starts strictly within it, any info
/// place lies from its start to below the threshold, or a nonzero debug offset is below the threshold."
fn in_the_way(reading: &Reading, functions: &[Function], id: usize) -> Option<Departure> {
    let (begin, threshold) = functions[id].body;
    let others = || functions.iter().filter(|other| other.id != id).map(|other| other.body);
    if others().any(|(start, end)| start.max(begin) < end.min(threshold)) {
        return Some(Departure::SharedBodyEdited);
    }
    if others().any(|(start, end)| start == end && begin < start && start < threshold) {
        return Some(Departure::EmptyBodyInside);
    }
    let is_inside = |info: u64| info != 0 && begin <= info && info < threshold;
    if functions.iter().any(|function| is_inside(function.info)) {
        return Some(Departure::InfoInside);
    }
    let debug = u64::from(word(reading.image, reading.layout.debug()));
    (debug != 0 && debug < threshold).then_some(Departure::DebugBefore)
}

/// Refusal 12 is not given.
fn fits(reading: &Reading, functions: &[Function], id: usize, size: u64) -> bool {
    let (begin, threshold) = functions[id].body;
    let fits = |place: u64| place < threshold || place - threshold + begin + size <= FIELD;
    functions.iter().filter(|function| function.header.is_none()).all(|function| {
        let most = if reading.layout.is_modern() { 16_383 } else { 32_767 };
        (function.id != id || size <= most)
            && (function.id == id || fits(function.body.0))
            && fits(function.info)
    })
}
