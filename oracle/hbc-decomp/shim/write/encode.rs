// The encoder of instructions is not in the text. Only `patch_function_body` asks for it, which is not
// compared.

use crate::error::{Error, Result};
use crate::file::Instruction;
use crate::opcode::BytecodeFormat;

pub fn encode_function_body(_: &BytecodeFormat, _: &[Instruction]) -> Result<Vec<u8>> {
    Err(Error::Write("no encoder".into()))
}
