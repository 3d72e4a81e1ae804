//! generate FAMILY SEED COUNT: that many random calls on standard output, the same for the same seed.

use std::io::{self, BufWriter, Write};

use oracle::family::Family;
use oracle::random::Random;

fn main() -> io::Result<()> {
    let given = Family::of_arguments().and_then(|(family, words)| {
        let numbers: Vec<u64> = words.iter().filter_map(|word| word.parse().ok()).collect();
        let [seed, count] = numbers[..] else { return None };
        Some((family, seed, count))
    });
    let Some((family, seed, count)) = given else {
        eprintln!("usage: generate FAMILY SEED COUNT");
        std::process::exit(2);
    };
    let mut random = Random(seed);
    let mut calls = BufWriter::new(io::stdout().lock());
    for _ in 0..count {
        (family.random)(&mut random).write(&mut calls)?;
    }
    calls.flush()
}
