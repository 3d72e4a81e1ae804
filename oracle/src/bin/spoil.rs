//! spoil SEED: standard input on standard output with one bit flipped, so that a comparison that finds
//! nothing can be told from one that looks at nothing.

use std::io::{self, Read, Write};

use oracle::random::Random;

fn main() -> io::Result<()> {
    let Some(seed) = std::env::args().nth(1).and_then(|word| word.parse().ok()) else {
        eprintln!("usage: spoil SEED");
        std::process::exit(2);
    };
    let mut bytes = vec![];
    io::stdin().read_to_end(&mut bytes)?;
    let mut random = Random(seed);
    let place = random.within(0..bytes.len());
    bytes[place] ^= 1 << random.below(8);
    io::stdout().write_all(&bytes)
}
