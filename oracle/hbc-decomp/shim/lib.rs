// The modules that are compiled. The text has no file for the crate's root.

pub mod error;
pub mod file;
pub mod format;
pub mod opcode;
pub mod write;
