//! The judge: the answers of the Rust, or of a second reading of documents 01 and 02, to streams of calls; the
//! streams; and the comparison.

#[macro_use]
mod slips;

pub mod builder;
pub mod family;
pub mod image;
pub mod index;
pub mod job;
pub mod leaves;
pub mod patches;
pub mod po;
pub mod random;
pub mod stream;
pub mod why;
