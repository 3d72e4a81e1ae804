//! The fixed calls: every function, each limit. They hold no call on which a listed departure of the
//! comparison bears, so that the recorded answers are at once the judge's and ours.

use super::record::{self, set_pointer, Field, Pointer, INFO, OFFSET};
use super::shifts;
use super::{buffer_of, leaf, on_record, LEAVES};
use crate::family::{halves, Argument, Function};
use crate::stream::Call;

/// Both ends of 32 bits, and both signs of one step, as argument words.
const DELTAS: [u32; 5] = [0, 1, -1i32 as u32, i32::MIN as u32, i32::MAX as u32];
const ZEROS: u128 = 0;
const ONES: u128 = u128::MAX;

pub fn calls() -> Vec<Call> {
    let mut calls = vec![];
    buffer_lengths(&mut calls);
    single_arguments(&mut calls);
    header_flags(&mut calls);
    cut_values(&mut calls);
    small_offsets(&mut calls);
    large_pointers(&mut calls);
    words(&mut calls);
    record_fields(&mut calls);
    sums(&mut calls);
    calls
}

/// Arguments that differ from each other and under which no function refuses a buffer that is long enough.
fn plain_arguments(leaf: &Function) -> Vec<u32> {
    let plain = |(i, argument): (usize, &Argument)| match argument {
        Argument::Word(_) => 0x0101_0101 * (i as u32 + 1),
        Argument::Flag(_) | Argument::Delta => 1,
        Argument::LongLow(_) | Argument::LongHigh(_) => 0,
    };
    leaf.arguments.iter().enumerate().map(plain).collect()
}

/// Each buffer empty, short by one, exact, and longer by one.
fn buffer_lengths(calls: &mut Vec<Call>) {
    for leaf in &LEAVES {
        let least = buffer_of(leaf).least();
        let mut lengths = vec![0, least.saturating_sub(1), least, least + 1];
        lengths.dedup();
        for length in lengths {
            let counting = (0..length).map(|i| i as u8).collect();
            for buffer in [vec![0; length], vec![0xff; length], counting] {
                calls.push(Call::new(leaf, &plain_arguments(leaf), buffer));
            }
        }
    }
}

/// Each argument of a packer or header writer alone all ones, and alone 0.
fn single_arguments(calls: &mut Vec<Call>) {
    let names =
        ["write_function_header_legacy_small", "write_modern_header", "write_legacy_header"];
    for leaf in names.map(leaf) {
        let count = leaf.arguments.len();
        for i in 0..count {
            for (others, own) in [(0, u32::MAX), (u32::MAX, 0)] {
                let value = |j| match (leaf.arguments[j], if i == j { own } else { others }) {
                    (Argument::Flag(_), value) => value & 1,
                    (_, value) => value,
                };
                let arguments: Vec<u32> = (0..count).map(value).collect();
                calls.push(Call::new(leaf, &arguments, vec![0; buffer_of(leaf).least()]));
            }
        }
    }
}

/// A legacy header with each combination of its three flags.
fn header_flags(calls: &mut Vec<Call>) {
    let leaf = leaf("write_legacy_header");
    for combination in 0..8 {
        let mut arguments = plain_arguments(leaf);
        let is_flag = |i: &usize| matches!(leaf.arguments[*i], Argument::Flag(_));
        for (bit, i) in (0..arguments.len()).filter(is_flag).enumerate() {
            arguments[i] = combination >> bit & 1;
        }
        for byte in [0, 0xff] {
            calls.push(Call::new(leaf, &arguments, vec![byte; buffer_of(leaf).least()]));
        }
    }
}

/// Values at the limit of their field, and past it, where they are cut.
fn cut_values(calls: &mut Vec<Call>) {
    let limits = |field: Field| [0, 1, field.most() as u32, field.most() as u32 + 1, u32::MAX];
    for (i, field) in record::LEGACY.iter().enumerate() {
        for value in limits(*field) {
            let mut arguments = [0; record::LEGACY.len()];
            arguments[i] = value;
            calls.push(Call::new(leaf("write_function_header_legacy_small"), &arguments, vec![]));
        }
    }
    let [offset, _, size, ..] = record::LEGACY;
    for record in [ZEROS, ONES] {
        for offset in limits(offset) {
            for size in limits(size) {
                let name = "patch_legacy_small_header_offset_size";
                calls.push(on_record(name, &[offset, size], record));
            }
        }
    }
}

/// The offset and info of small records, at both ends of 25 bits.
fn small_offsets(calls: &mut Vec<Call>) {
    for record in [ZEROS, ONES] {
        for delta in DELTAS {
            for offset in [0, 1, OFFSET.most()] {
                let record = OFFSET.set(record, offset);
                calls.push(on_record("shift_modern_small_header_offset", &[delta], record));
                for info in [0, 1, INFO.most()] {
                    let record = INFO.set(record, info);
                    calls.push(on_record("shift_legacy_small_header_offsets", &[delta], record));
                }
            }
        }
    }
}

/// Large pointers on both sides of where their two parts join, and at both ends of 32 and 41 bits.
fn large_pointers(calls: &mut Vec<Call>) {
    let legacy = [0, 1, 0xffff, 0x1_0000, 0xffff_ffff, 1 << 32, (1 << 41) - 1];
    let modern = [0, 1, 0xff_ffff, 0x100_0000, 0xffff_ffff];
    one_layout(calls, "legacy", record::LEGACY_POINTER, &legacy);
    one_layout(calls, "modern", record::MODERN_POINTER, &modern);

    fn one_layout(calls: &mut Vec<Call>, layout: &str, parts: Pointer, pointers: &[u64]) {
        for record in [ZEROS, ONES] {
            for pointer in pointers {
                let record = set_pointer(parts, record, *pointer);
                calls.push(on_record(&format!("read_{layout}_large_pointer"), &[], record));
                for delta in DELTAS {
                    calls.push(on_record(
                        &format!("shift_{layout}_large_pointer"),
                        &[delta],
                        record,
                    ));
                }
            }
        }
    }
}

/// Words at both ends of 32 bits, and positions up to the last for which `pos + 4` fits 64 bits.
fn words(calls: &mut Vec<Call>) {
    let mut shift = |position: u64, delta: u32, buffer: Vec<u8>| {
        let [low, high] = halves(position);
        calls.push(Call::new(leaf("shift_u32_at"), &[low, high, delta], buffer));
    };
    for word in [0, 1, 1 << 31, u32::MAX] {
        for delta in DELTAS {
            for position in [0, 3, 4] {
                let mut buffer = vec![0xa5; 8];
                buffer[position..position + 4].copy_from_slice(&word.to_le_bytes());
                shift(position as u64, delta, buffer);
            }
        }
    }
    let past_the_end = [5, 7, 8, 9, (1 << 32) - 4, 1 << 32, 1 << 63, u64::MAX - 4];
    for position in past_the_end {
        shift(position, 1, vec![0xa5; 8]);
    }
}

/// Each field of a record alone all ones, and alone 0.
fn record_fields(calls: &mut Vec<Call>) {
    let layouts: [(&str, &[Field]); 2] = [("legacy", &record::LEGACY), ("modern", &record::MODERN)];
    for (layout, fields) in layouts {
        for field in fields {
            for record in [field.set(ZEROS, field.most()), field.set(ONES, 0)] {
                calls.push(on_record(&format!("read_{layout}_function_header"), &[], record));
            }
        }
    }
}

/// Sums on both sides of 0 and of what their place holds, each by one; slots that are too short for them; and the
/// smallest inputs of the departures.
fn sums(calls: &mut Vec<Call>) {
    let middle = 1 << 20;
    let small = ["shift_modern_small_header_offset", "shift_legacy_small_header_offsets"];
    for step in [1, 5, 4096] {
        for (number, up) in [(step, false), (OFFSET.most() - step, true)] {
            for past in [0, 1] {
                let delta = (step + past) as i32;
                let delta = if up { delta } else { -delta } as u32;
                for record in [ZEROS, ONES] {
                    let offset = OFFSET.set(INFO.set(record, 0), number);
                    small.iter().for_each(|name| calls.push(on_record(name, &[delta], offset)));
                    // the offset could move, and the info place cannot, or just can
                    let info = INFO.set(OFFSET.set(record, middle), number);
                    calls.push(on_record(small[1], &[delta], info));
                }
            }
        }
    }
    let near = |limit: u64| [limit - 2, limit - 1, limit, limit + 1];
    for record in [ZEROS, ONES] {
        for pointer in near(1 << 32).into_iter().chain(near((1 << 32) + (1 << 31))) {
            for delta in [-2, -1, 0, 1, 2, i32::MIN, i32::MIN + 1] {
                let legacy = set_pointer(record::LEGACY_POINTER, record, pointer);
                calls.push(on_record("shift_legacy_large_pointer", &[delta as u32], legacy));
                if pointer < 1 << 32 {
                    let modern = set_pointer(record::MODERN_POINTER, record, pointer);
                    calls.push(on_record("shift_modern_large_pointer", &[delta as u32], modern));
                }
            }
        }
    }
    for (_, call, _) in shifts::shown() {
        // 1 comes before 12
        let short = call.buffer[1..].to_vec();
        calls.push(Call::new(call.function, &call.arguments, short));
        calls.push(call);
    }
}
