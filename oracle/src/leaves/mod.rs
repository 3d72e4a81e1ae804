//! Calls 1 to 13: the functions of header_write.rs, and the readers of a record.

mod fixed;
mod random;
pub mod record;
pub mod shifts;

use hbc_decomp::error::Result;
use hbc_decomp::write::header_write::*;

use crate::family::Argument::*;
use crate::family::{long, Answered, Departure, Family, Function, STOPPED};
use crate::stream::{words, Answer, Call, ARGUMENTS};
use record::Field;
use shifts::Shift;

/// Refusal 1 of document 01, and every Err of the Rust here.
pub const TOO_SHORT: u32 = 1;

pub static FAMILY: Family = Family {
    name: "leaves",
    functions: &LEAVES,
    longest_buffer: LONGEST_BUFFER,
    fixed: fixed::calls,
    random: random::call,
    // Those of the shifts the judge itself recognises: its answers are what document 02 asks for.
    departures: &[Departure { name: "position wraps", explains: position_wraps }],
};

pub const LONGEST_BUFFER: usize = 256;

/// What the buffer is.
#[derive(Clone, Copy)]
pub enum Buffer {
    Untouched,
    Header,
    LegacySlot,
    ModernSlot,
    HoldsWord,
}
use Buffer::*;

/// What the buffer of a leaf is.
pub fn buffer_of(leaf: &Function) -> Buffer {
    match leaf.number {
        1 => Untouched,
        2 | 3 => Header,
        4 | 6 | 7 | 8 | 12 => LegacySlot,
        11 => HoldsWord,
        _ => ModernSlot,
    }
}

impl Buffer {
    /// The shortest buffer that is not refused.
    pub fn least(self) -> usize {
        match self {
            Untouched => 0,
            Header => 128,
            LegacySlot => 16,
            ModernSlot => 12,
            HoldsWord => 4,
        }
    }

    /// The fields on which the answer turns, for a record.
    pub fn fields(self) -> &'static [Field] {
        match self {
            LegacySlot => &record::LEGACY,
            ModernSlot => &[record::OFFSET, record::MODERN_POINTER[1]],
            _ => &[],
        }
    }
}

fn leaf(name: &str) -> &'static Function {
    FAMILY.function(name)
}

/// A call on a record that fills its slot.
fn on_record(name: &str, arguments: &[u32], record: u128) -> Call {
    let leaf = leaf(name);
    let slot = record.to_le_bytes()[..buffer_of(leaf).least()].to_vec();
    Call::new(leaf, arguments, slot)
}

fn delta(word: u32) -> i64 {
    i64::from(word as i32)
}

fn source_hash(arguments: &[u32; ARGUMENTS]) -> [u8; 20] {
    let bytes: Vec<u8> = arguments[1..6].iter().flat_map(|word| word.to_le_bytes()).collect();
    bytes.try_into().unwrap()
}

fn nothing(done: Result<()>) -> Answered {
    given(done.map(|()| vec![]))
}

fn given(done: Result<Vec<u32>>) -> Answered {
    done.map_err(|_| TOO_SHORT)
}

/// `shift_u32_at` where `pos + 4` does not fit 64 bits: the Rust stops, ours refuses.
fn position_wraps(call: &Call, mine: &Answer, theirs: &Answer) -> bool {
    call.function.name == "shift_u32_at"
        && long(&call.arguments).checked_add(4).is_none()
        && *mine == call.refused(TOO_SHORT)
        && *theirs == call.refused(STOPPED)
}

static LEAVES: [Function; 13] = [
    Function {
        number: 1,
        name: "write_function_header_legacy_small",
        arguments: &[
            Word("offset"),
            Word("param_count"),
            Word("bytecode_size"),
            Word("function_name"),
            Word("info_offset"),
            Word("frame_size"),
            Word("environment_size"),
            Word("highest_read_cache"),
            Word("highest_write_cache"),
            Word("flags"),
        ],
        run: |a, _| {
            let record = write_function_header_legacy_small(
                a[0], a[1], a[2], a[3], a[4], a[5], a[6], a[7], a[8], a[9] as u8,
            );
            Ok(words(&record))
        },
    },
    Function {
        number: 2,
        name: "write_modern_header",
        arguments: &[
            Word("version"),
            Word("source_hash[0..4]"),
            Word("source_hash[4..8]"),
            Word("source_hash[8..12]"),
            Word("source_hash[12..16]"),
            Word("source_hash[16..20]"),
            Word("function_count"),
            Word("string_kind_count"),
            Word("identifier_count"),
            Word("string_count"),
            Word("string_storage_size"),
        ],
        run: |a, buf| {
            let hash = source_hash(a);
            nothing(write_modern_header(buf, a[0], hash, a[6], a[7], a[8], a[9], a[10]))
        },
    },
    Function {
        number: 3,
        name: "write_legacy_header",
        arguments: &[
            Word("version"),
            Word("source_hash[0..4]"),
            Word("source_hash[4..8]"),
            Word("source_hash[8..12]"),
            Word("source_hash[12..16]"),
            Word("source_hash[16..20]"),
            Word("file_length"),
            Word("global_code_index"),
            Word("function_count"),
            Word("string_kind_count"),
            Word("identifier_count"),
            Word("string_count"),
            Word("overflow_string_count"),
            Word("string_storage_size"),
            Flag("has_bigint"),
            Word("big_int_count"),
            Word("big_int_storage_size"),
            Word("reg_exp_count"),
            Word("reg_exp_storage_size"),
            Word("array_buffer_size"),
            Word("obj_key_buffer_size"),
            Word("obj_value_buffer_size"),
            Flag("has_segment_id"),
            Word("segment_id"),
            Word("cjs_module_count"),
            Flag("has_function_source"),
            Word("function_source_count"),
            Word("debug_info_offset"),
            Word("options"),
        ],
        run: |a, buf| {
            let hash = source_hash(a);
            nothing(write_legacy_header(
                buf,
                a[0],
                hash,
                a[6],
                a[7],
                a[8],
                a[9],
                a[10],
                a[11],
                a[12],
                a[13],
                a[14] != 0,
                a[15],
                a[16],
                a[17],
                a[18],
                a[19],
                a[20],
                a[21],
                a[22] != 0,
                a[23],
                a[24],
                a[25] != 0,
                a[26],
                a[27],
                a[28] as u8,
            ))
        },
    },
    Function {
        number: 4,
        name: "patch_legacy_small_header_offset_size",
        arguments: &[Word("offset"), Word("bytecode_size")],
        run: |a, slot| nothing(patch_legacy_small_header_offset_size(slot, a[0], a[1])),
    },
    Function {
        number: 5,
        name: "shift_modern_small_header_offset",
        arguments: &[Delta],
        run: |a, slot| shifts::run(Shift::ModernOffset, delta(a[0]), slot),
    },
    Function {
        number: 6,
        name: "shift_legacy_small_header_offsets",
        arguments: &[Delta],
        run: |a, slot| shifts::run(Shift::LegacyOffsets, delta(a[0]), slot),
    },
    Function {
        number: 7,
        name: "read_legacy_large_pointer",
        arguments: &[],
        run: |_, slot| given(read_legacy_large_pointer(slot).map(|pointer| vec![pointer])),
    },
    Function {
        number: 8,
        name: "shift_legacy_large_pointer",
        arguments: &[Delta],
        run: |a, slot| shifts::run(Shift::LegacyPointer, delta(a[0]), slot),
    },
    Function {
        number: 9,
        name: "read_modern_large_pointer",
        arguments: &[],
        run: |_, slot| given(read_modern_large_pointer(slot).map(|pointer| vec![pointer])),
    },
    Function {
        number: 10,
        name: "shift_modern_large_pointer",
        arguments: &[Delta],
        run: |a, slot| shifts::run(Shift::ModernPointer, delta(a[0]), slot),
    },
    Function {
        number: 11,
        name: "shift_u32_at",
        arguments: &[LongLow("position"), LongHigh("position"), Delta],
        run: |a, buf| shifts::run(Shift::WordAt(long(a)), delta(a[2]), buf),
    },
    // The next two are answered by the second reading, not by the Rust.
    Function {
        number: 12,
        name: "read_legacy_function_header",
        arguments: &[],
        run: |_, slot| given(record::read(&record::LEGACY, LegacySlot.least(), slot)),
    },
    Function {
        number: 13,
        name: "read_modern_function_header",
        arguments: &[],
        run: |_, slot| given(record::read(&record::MODERN, ModernSlot.least(), slot)),
    },
];
