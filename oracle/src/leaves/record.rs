//! A second reading of document 01, "Image rules": a function record as one number. It answers the
//! calls that read a record, for which the Rust's text has no counterpart (its parser is not there),
//! and it shapes the records of the streams.

use hbc_decomp::error::{Error, Result};

/// Bits of a record: the lowest one's place, and how many.
#[derive(Clone, Copy)]
pub struct Field {
    place: u32,
    pub width: u32,
}

const fn field(place: u32, width: u32) -> Field {
    Field { place, width }
}

pub const OFFSET: Field = field(0, 25);
pub const INFO: Field = field(64, 25);

/// Offset, parameters, size, name, info, frame, environment, read cache, write cache, flags.
pub const LEGACY: [Field; 10] = [
    OFFSET,
    field(25, 7),
    field(32, 15),
    field(47, 17),
    INFO,
    field(89, 7),
    field(96, 8),
    field(104, 8),
    field(112, 8),
    field(120, 8),
];

/// Offset, size, flags.
pub const MODERN: [Field; 3] = [OFFSET, field(32, 14), field(88, 8)];

/// The low and the high part of a large pointer.
pub type Pointer = [Field; 2];
pub const LEGACY_POINTER: Pointer = [field(0, 16), INFO];
pub const MODERN_POINTER: Pointer = [field(0, 24), field(46, 8)];

impl Field {
    pub fn most(self) -> u64 {
        (1 << self.width) - 1
    }

    pub fn get(self, record: u128) -> u32 {
        (record >> self.place) as u32 & self.most() as u32
    }

    /// The record with the value, cut to the width, in this field.
    pub fn set(self, record: u128, value: u64) -> u128 {
        let cleared = record & !(u128::from(self.most()) << self.place);
        cleared | u128::from(value & self.most()) << self.place
    }
}

pub fn set_pointer([low, high]: Pointer, record: u128, pointer: u64) -> u128 {
    high.set(low.set(record, pointer), pointer >> low.width)
}

/// The fields of the record in the first `size` bytes of the slot.
pub fn read(fields: &[Field], size: usize, slot: &[u8]) -> Result<Vec<u32>> {
    let Some(slot) = slot.get(..size) else {
        return Err(Error::Write("slot too small".into()));
    };
    let record = number(slot);
    Ok(fields.iter().map(|field| field.get(record)).collect())
}

/// At most 16 bytes as a number, the lowest byte first.
pub fn number(bytes: &[u8]) -> u128 {
    bytes.iter().rev().fold(0, |number, byte| number << 8 | u128::from(*byte))
}
