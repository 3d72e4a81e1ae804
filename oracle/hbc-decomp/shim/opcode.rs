// The format of instructions, which the text takes; only `patch_function_body`, which is not asked, looks
// at it.

pub struct Definition {
    pub name: String,
    pub opcode: u8,
}

pub struct BytecodeFormat {
    pub definitions: Vec<Definition>,
}
