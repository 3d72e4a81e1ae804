//! A second reading of document 01, "Image rules": where things stand in an image.

use crate::leaves::record::{self, Field, Pointer};

/// The first 8 bytes.
pub const MAGIC: u64 = 0x1F19_03C1_03BC_1FC6;
pub const HEADER: usize = 128;
pub const FOOTER: usize = 20;
pub const LARGE_FLAG: u64 = 0x20;

// Places of the words of the header.
pub const FILE_LENGTH: usize = 32;
pub const FUNCTIONS: usize = 40;
pub const KINDS: usize = 44;
pub const IDENTIFIERS: usize = 48;
pub const STRINGS: usize = 52;
pub const OVERFLOWS: usize = 56;
pub const STORAGE: usize = 60;

/// The top bit of a kind word.
pub const IDENTIFIER: u32 = 1 << 31;

/// By its byte: 0 modern; 1 legacy, 2 with big integers, 3 with sources, 4 both.
#[derive(Clone, Copy, PartialEq)]
pub struct Layout(pub u8);

pub const LAYOUTS: [Layout; 5] = [Layout(0), Layout(1), Layout(2), Layout(3), Layout(4)];

impl Layout {
    pub fn is_modern(self) -> bool {
        self.0 == 0
    }

    /// The debug offset's place.
    pub fn debug(self) -> usize {
        [108, 92, 100, 96, 104][self.0 as usize]
    }

    /// The bytes of a function record.
    pub fn record(self) -> usize {
        if self.is_modern() {
            12
        } else {
            16
        }
    }

    /// The bytes of the words of a large header.
    pub fn large(self) -> usize {
        if self.is_modern() {
            16
        } else {
            20
        }
    }

    /// The place of the size in a large header; the offset is at 0.
    pub fn large_size(self) -> usize {
        if self.is_modern() {
            12
        } else {
            8
        }
    }

    /// The place of the info in a large header.
    pub fn large_info(self) -> Option<usize> {
        (!self.is_modern()).then_some(16)
    }

    pub fn size(self) -> Field {
        if self.is_modern() {
            record::MODERN[1]
        } else {
            record::LEGACY[2]
        }
    }

    pub fn info(self) -> Option<Field> {
        (!self.is_modern()).then_some(record::INFO)
    }

    pub fn flags(self) -> Field {
        if self.is_modern() {
            record::MODERN[2]
        } else {
            record::LEGACY[9]
        }
    }

    pub fn pointer(self) -> Pointer {
        if self.is_modern() {
            record::MODERN_POINTER
        } else {
            record::LEGACY_POINTER
        }
    }
}

/// The word at a place, with zeros for bytes past the end.
pub fn word(image: &[u8], at: usize) -> u32 {
    number(image, at, 4) as u32
}

/// Up to 16 bytes as a number.
pub fn number(image: &[u8], at: usize, count: usize) -> u128 {
    let end = at.saturating_add(count).min(image.len());
    record::number(image.get(at..end).unwrap_or(&[]))
}

pub fn set_word(image: &mut [u8], at: usize, word: u32) {
    image[at..at + 4].copy_from_slice(&word.to_le_bytes());
}
