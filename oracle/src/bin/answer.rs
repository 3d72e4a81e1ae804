//! answer FAMILY: calls on standard input, the judge's answers on standard output.

use std::io::{self, BufReader, BufWriter, Write};

use oracle::family::Family;
use oracle::stream::Call;

fn main() -> io::Result<()> {
    let Some((family, _)) = Family::of_arguments() else {
        eprintln!("usage: answer FAMILY");
        std::process::exit(2);
    };
    // Where the Rust stops, the status says so; a message for each such call would only be noise.
    std::panic::set_hook(Box::new(|_| {}));
    let mut calls = BufReader::new(io::stdin().lock());
    let mut answers = BufWriter::new(io::stdout().lock());
    while let Some(call) = Call::read(family, &mut calls) {
        call.answer().write(&mut answers)?;
    }
    answers.flush()
}
