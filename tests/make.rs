//! Writes an image laid out as compilers lay them out to standard output:
//!   make modern|mixed|pairs|names|shared FUNCTIONS STRINGS MORE LENGTH
//! MORE: how many bytes each body has over 8 to 31. LENGTH: that of the image; zeros before the footer make it up.
#![allow(dead_code)]

#[path = "../bench/src/image.rs"]
mod image;

use std::io::Write;

fn main() {
    let words: Vec<String> = std::env::args().collect();
    let number = |i: usize| words[i].parse::<usize>().unwrap();
    let mut bytes = image::image(&image::shape(&words[1]), number(2), number(3), number(4));
    assert!(bytes.len() <= number(5), "{} bytes", bytes.len());
    bytes.resize(number(5), 0);
    std::io::stdout().write_all(&bytes).unwrap();
}
