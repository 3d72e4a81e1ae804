// What the text asks of a parsed file. The parser is not in the text: the judge fills these from its own
// reading of an image.

use crate::format::{BytecodeHeader, FunctionHeader};

pub struct Section {
    pub name: String,
    pub offset: u32,
}

pub struct StringEntry {
    /// The decoded text.
    pub value: String,
    pub is_utf16: bool,
    pub is_identifier: bool,
}

/// An instruction, which only `patch_function_body` takes; it is not asked.
#[derive(Clone)]
pub struct Instruction {
    pub offset: u32,
    pub opcode: u8,
    pub operands: Vec<u32>,
    pub length: u32,
}

pub struct BytecodeFile {
    pub raw_bytes: Option<Vec<u8>>,
    pub header: BytecodeHeader,
    pub sections: Vec<Section>,
    pub function_headers: Vec<FunctionHeader>,
    pub strings: Vec<StringEntry>,
    pub instruction_offset: u32,
    pub instructions: Vec<u8>,
}
