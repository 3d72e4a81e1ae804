//! The parser's part: the Rust's `BytecodeFile` of an admitted image, filled from the judge's own reading,
//! anew before each patch. What stands behind it is in docs/DIFFERENCES.md.

use hbc_decomp::file::{BytecodeFile, Section, StringEntry};
use hbc_decomp::format::*;

use super::texts;
use crate::image::layout::{number, word, Layout, HEADER};
use crate::image::reading::Reading;
use crate::leaves::record::{self, Field};

pub fn parsed(reading: &Reading) -> BytecodeFile {
    let image = reading.image;
    let tail = reading.places().tail as usize;
    BytecodeFile {
        raw_bytes: Some(image.to_vec()),
        header: header(reading),
        sections: sections(reading),
        function_headers: (0..reading.functions().count())
            .map(|id| function(reading, id))
            .collect(),
        strings: strings(reading),
        instruction_offset: tail as u32,
        instructions: image[tail..].to_vec(),
    }
}

fn sections(reading: &Reading) -> Vec<Section> {
    let p = reading.places();
    let after = if reading.layout.is_modern() { "literal_value_buffer" } else { "array_buffer" };
    let starts = [
        ("function_headers", HEADER as u64),
        ("identifier_hashes", p.hashes),
        ("small_string_table", p.small),
        ("overflow_string_table", p.overflow),
        ("string_storage", p.storage),
        (after, p.tail),
    ];
    starts.map(|(name, at)| Section { name: name.into(), offset: at as u32 }).into()
}

fn strings(reading: &Reading) -> Vec<StringEntry> {
    let identifiers = texts::identifiers(reading);
    let entries = reading.strings().into_iter().zip(identifiers);
    entries
        .map(|(stored, is_identifier)| StringEntry {
            value: String::from_utf16_lossy(&texts::units(reading, &stored)),
            is_utf16: stored.wide,
            is_identifier,
        })
        .collect()
}

/// The fields that the patches look at: the layout's, and the debug offset. The others are 0.
fn header(reading: &Reading) -> BytecodeHeader {
    let layout = reading.layout;
    let (big_integers, sources) = match layout {
        Layout(2) => (Some(0), None),
        Layout(3) => (None, Some(0)),
        Layout(4) => (Some(0), Some(0)),
        _ => (None, None),
    };
    BytecodeHeader {
        magic: 0,
        version: 0,
        source_hash: [0; 20],
        file_length: 0,
        global_code_index: 0,
        function_count: 0,
        string_kind_count: 0,
        identifier_count: 0,
        string_count: 0,
        overflow_string_count: 0,
        string_storage_size: 0,
        big_int_count: big_integers,
        big_int_storage_size: big_integers,
        reg_exp_count: 0,
        reg_exp_storage_size: 0,
        literal_value_buffer_size: None,
        array_buffer_size: None,
        obj_key_buffer_size: 0,
        obj_value_buffer_size: None,
        obj_shape_table_count: None,
        num_string_switch_imms: None,
        segment_id: None,
        cjs_module_offset: None,
        cjs_module_count: 0,
        function_source_count: sources,
        debug_info_offset: word(reading.image, layout.debug()),
        options: 0,
        layout: if layout.is_modern() { HeaderLayout::Modern } else { HeaderLayout::Legacy },
        function_header_layout: if layout.is_modern() {
            FunctionHeaderLayout::Modern12
        } else {
            FunctionHeaderLayout::Legacy16
        },
    }
}

/// A record, with body and info from its large header if it has one.
fn function(reading: &Reading, id: usize) -> FunctionHeader {
    let layout = reading.layout;
    let record = number(reading.image, HEADER + id * layout.record(), layout.record());
    let found = reading.function(id);
    let (offset, size) = (found.body.0 as u32, (found.body.1 - found.body.0) as u32);
    let get = |field: Field| field.get(record);
    let flags = get(layout.flags()) as u8;
    if layout.is_modern() {
        return FunctionHeader::Modern(ModernFunctionHeader {
            function_id: id as u32,
            offset,
            param_count: 0,
            loop_depth: 0,
            bytecode_size_in_bytes: size,
            function_name: 0,
            number_reg_count: 0,
            non_ptr_reg_count: 0,
            frame_size: 0,
            read_cache_size: 0,
            write_cache_size: 0,
            num_cache_new_object: 0,
            private_name_cache_size: 0,
            flags,
            info_offset: 0,
        });
    }
    FunctionHeader::Legacy(LegacyFunctionHeader {
        function_id: id as u32,
        offset,
        param_count: get(record::LEGACY[1]),
        bytecode_size_in_bytes: size,
        function_name: get(record::LEGACY[3]),
        info_offset: found.info as u32,
        frame_size: get(record::LEGACY[5]),
        environment_size: get(record::LEGACY[6]),
        highest_read_cache_index: get(record::LEGACY[7]),
        highest_write_cache_index: get(record::LEGACY[8]),
        flags,
    })
}
