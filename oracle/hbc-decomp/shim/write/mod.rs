// The modules of `write` that are compiled. The text has no file for `write` itself.

pub mod encode;
pub mod footer;
pub mod header_write;
pub mod patch;
pub mod serialize;
