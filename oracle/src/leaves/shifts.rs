//! The five shifts, by a second reading of document 02, No. 8: a delta is added to a number as it stands, and a
//! sum below 0 or past the bits of its place is refused with 12. The Rust wraps such a sum, and reads a legacy
//! pointer modulo 2^32 first. Where that shows, its answer is held to exactly that, computed here once more.

use hbc_decomp::error::Result as RustResult;
use hbc_decomp::write::header_write::*;

use super::record::{number, set_pointer, Field, Pointer};
use super::record::{INFO, LEGACY_POINTER, MODERN_POINTER, OFFSET};
use super::{leaf, on_record, TOO_SHORT};
use crate::family::{long, Answered};
use crate::patches::judgement::UNLISTED;
use crate::stream::{Call, ARGUMENTS};

/// Refusal 12 of documents 01 and 02.
const FIELD: u32 = 12;

#[derive(Clone, Copy, PartialEq, Debug)]
pub enum Departure {
    SumWrapped,
    PointerCut,
}

pub const DEPARTURES: [Departure; 2] = [Departure::SumWrapped, Departure::PointerCut];

#[derive(Clone, Copy)]
pub enum Shift {
    ModernOffset,
    LegacyOffsets,
    ModernPointer,
    LegacyPointer,
    WordAt(usize),
}

/// Where a number stands that a shift moves: in a record of so many bytes, or at a position.
#[derive(Clone, Copy)]
pub enum Place {
    Field(Field, usize),
    Pointer(Pointer, usize),
    Word(usize),
}

const MODERN: usize = 12;
const LEGACY: usize = 16;

impl Place {
    /// The bits that a sum may have here.
    pub fn bits(self) -> u32 {
        match self {
            Place::Field(field, _) => field.width,
            Place::Pointer(..) | Place::Word(_) => 32,
        }
    }

    pub fn get(self, buffer: &[u8]) -> u64 {
        match self {
            Place::Field(field, size) => field.get(number(&buffer[..size])).into(),
            Place::Pointer([low, high], size) => {
                let record = number(&buffer[..size]);
                u64::from(high.get(record)) << low.width | u64::from(low.get(record))
            }
            Place::Word(position) => number(&buffer[position..position + 4]) as u64,
        }
    }

    /// Puts the low bits of a value, as many as there are for it: 41 for a legacy pointer, which fills the
    /// offset field to its end.
    fn put(self, buffer: &mut [u8], value: u64) {
        let (size, record) = match self {
            Place::Field(field, size) => (size, field.set(number(&buffer[..size]), value)),
            Place::Pointer(parts, MODERN) => {
                (MODERN, set_pointer(parts, number(&buffer[..MODERN]), value))
            }
            Place::Pointer(parts, size) => {
                (size, set_pointer(parts, OFFSET.set(number(&buffer[..size]), 0), value))
            }
            Place::Word(position) => {
                buffer[position..position + 4].copy_from_slice(&(value as u32).to_le_bytes());
                return;
            }
        };
        buffer[..size].copy_from_slice(&record.to_le_bytes()[..size]);
    }

    /// The sum that document 02 speaks of.
    fn sum(self, buffer: &[u8], delta: i64) -> i64 {
        self.get(buffer) as i64 + delta
    }

    /// Whether the sum is below 0 or past the bits of its place.
    fn refuses(self, buffer: &[u8], delta: i64) -> bool {
        !(0..1 << self.bits()).contains(&self.sum(buffer, delta))
    }

    /// The sum that the Rust makes: of a pointer modulo 2^32.
    fn sum_of_the_rust(self, buffer: &[u8], delta: i64) -> i64 {
        i64::from(self.get(buffer) as u32) + delta
    }
}

impl Shift {
    /// The shift that a call asks for, if it does.
    pub fn of(call: &Call) -> Option<Shift> {
        match call.function.name {
            "shift_modern_small_header_offset" => Some(Shift::ModernOffset),
            "shift_legacy_small_header_offsets" => Some(Shift::LegacyOffsets),
            "shift_modern_large_pointer" => Some(Shift::ModernPointer),
            "shift_legacy_large_pointer" => Some(Shift::LegacyPointer),
            "shift_u32_at" => Some(Shift::WordAt(long(&call.arguments))),
            _ => None,
        }
    }

    fn by_the_rust(self, buffer: &mut [u8], delta: i64) -> RustResult<()> {
        match self {
            Shift::ModernOffset => shift_modern_small_header_offset(buffer, delta),
            Shift::LegacyOffsets => shift_legacy_small_header_offsets(buffer, delta),
            Shift::ModernPointer => shift_modern_large_pointer(buffer, delta),
            Shift::LegacyPointer => shift_legacy_large_pointer(buffer, delta),
            Shift::WordAt(position) => shift_u32_at(buffer, position, delta),
        }
    }

    /// The numbers that move, in a buffer that holds them. Info 0 says that there is none.
    pub fn places(self, buffer: &[u8]) -> Vec<Place> {
        let info = Place::Field(INFO, LEGACY);
        match self {
            Shift::ModernOffset => vec![Place::Field(OFFSET, MODERN)],
            Shift::LegacyOffsets if info.get(buffer) == 0 => vec![Place::Field(OFFSET, LEGACY)],
            Shift::LegacyOffsets => vec![Place::Field(OFFSET, LEGACY), info],
            Shift::ModernPointer => vec![Place::Pointer(MODERN_POINTER, MODERN)],
            Shift::LegacyPointer => vec![Place::Pointer(LEGACY_POINTER, LEGACY)],
            Shift::WordAt(position) => vec![Place::Word(position)],
        }
    }
}

/// The buffer that document 02 asks for, or a refusal; and the departure that the Rust's own answer shows.
pub struct Judgement {
    answer: Result<Vec<u8>, u32>,
    pub departure: Option<Departure>,
}

fn judge(shift: Shift, delta: i64, buffer: &[u8]) -> Judgement {
    let mut rust = buffer.to_vec();
    if shift.by_the_rust(&mut rust, delta).is_err() {
        return Judgement { answer: Err(TOO_SHORT), departure: None };
    }
    let places = shift.places(buffer);
    let refused = places.iter().any(|place| place.refuses(buffer, delta));
    let made = |sum: fn(Place, &[u8], i64) -> i64| {
        let mut made = buffer.to_vec();
        places.iter().for_each(|place| place.put(&mut made, sum(*place, buffer, delta) as u64));
        made
    };
    let asked = if refused { Err(FIELD) } else { Ok(made(Place::sum)) };
    if asked.as_ref() == Ok(&rust) {
        return Judgement { answer: asked, departure: None };
    }
    if rust != made(Place::sum_of_the_rust) {
        return Judgement { answer: Err(UNLISTED), departure: None };
    }
    let departure = if refused { Departure::SumWrapped } else { Departure::PointerCut };
    Judgement { answer: asked, departure: Some(departure) }
}

/// The answer of a shift, in its buffer.
pub fn run(shift: Shift, delta: i64, buffer: &mut [u8]) -> Answered {
    let asked = judge(shift, delta, buffer).answer?;
    buffer.copy_from_slice(&asked);
    Ok(vec![])
}

/// The departure of the Rust that a call shows.
pub fn departure(call: &Call) -> Option<Departure> {
    let shift = Shift::of(call)?;
    if let Shift::WordAt(position) = shift {
        position.checked_add(4)?; // the Rust stops
    }
    judge(shift, super::delta(delta_of(&call.arguments, shift)), &call.buffer).departure
}

/// The word that is a shift's delta: the last of its arguments.
fn delta_of(arguments: &[u32; ARGUMENTS], shift: Shift) -> u32 {
    match shift {
        Shift::WordAt(_) => arguments[2],
        _ => arguments[0],
    }
}

/// The smallest inputs that show what docs/DIFFERENCES.md lists of the shifts, each by its name there.
pub fn shown() -> Vec<(&'static str, Call, Departure)> {
    const DOWN: u32 = -1i32 as u32;
    let on = |name, delta, record| on_record(name, &[delta], record);
    let wrapped = Departure::SumWrapped;
    let info = INFO.set(0, INFO.most());
    let past = set_pointer(LEGACY_POINTER, 0, 1 << 32);
    let word = Call::new(leaf("shift_u32_at"), &[0, 0, DOWN], vec![0; 4]);
    vec![
        ("modern offset below 0", on("shift_modern_small_header_offset", DOWN, 0), wrapped),
        ("legacy offset below 0", on("shift_legacy_small_header_offsets", DOWN, 0), wrapped),
        ("legacy info past its field", on("shift_legacy_small_header_offsets", 1, info), wrapped),
        ("modern pointer below 0", on("shift_modern_large_pointer", DOWN, 0), wrapped),
        ("legacy pointer below 0", on("shift_legacy_large_pointer", DOWN, 0), wrapped),
        ("word below 0", word, wrapped),
        (
            "legacy pointer of 2^32",
            on("shift_legacy_large_pointer", DOWN, past),
            Departure::PointerCut,
        ),
    ]
}
