//! fixed FAMILY: the fixed calls on standard output.

use std::io::{self, BufWriter, Write};

use oracle::family::Family;

fn main() -> io::Result<()> {
    let Some((family, _)) = Family::of_arguments() else {
        eprintln!("usage: fixed FAMILY");
        std::process::exit(2);
    };
    let mut calls = BufWriter::new(io::stdout().lock());
    for call in (family.fixed)() {
        call.write(&mut calls)?;
    }
    calls.flush()
}
