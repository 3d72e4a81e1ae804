//! The Rust's crate, from its own text and the shim. `build.rs` lays both in one tree.

include!(concat!(env!("OUT_DIR"), "/tree/lib.rs"));
