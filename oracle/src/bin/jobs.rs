//! jobs fixed: the recorded jobs on standard output, each its length in 4 bytes and its bytes.
//! jobs example [answer]: the recorded job of program `job`, as it is, or what it writes for it.
//! jobs SEED COUNT: random ones.
//! jobs answer: reads jobs and writes what the job program writes for each, as the second reading has it.

use std::io::{self, Read, Write};

use oracle::job::{answer, made};
use oracle::random::Random;

fn main() -> io::Result<()> {
    let arguments: Vec<String> = std::env::args().skip(1).collect();
    let words: Vec<&str> = arguments.iter().map(String::as_str).collect();
    let inputs = match words[..] {
        ["fixed"] => made::fixed(),
        ["example"] => return io::stdout().write_all(&made::example()),
        ["example", "answer"] => return io::stdout().write_all(&answer(&made::example())),
        ["answer"] => return answers(),
        [seed, count] => {
            let mut random = Random(seed.parse().unwrap());
            (0..count.parse().unwrap()).map(|_: u64| made::random(&mut random).bytes()).collect()
        }
        _ => {
            eprintln!("usage: jobs fixed, jobs SEED COUNT, jobs answer, jobs example [answer]");
            std::process::exit(2);
        }
    };
    let mut to = io::stdout().lock();
    for input in inputs {
        to.write_all(&(input.len() as u32).to_le_bytes())?;
        to.write_all(&input)?;
    }
    Ok(())
}

fn answers() -> io::Result<()> {
    let mut stream = vec![];
    io::stdin().lock().read_to_end(&mut stream)?;
    let mut rest = &stream[..];
    while let Some((length, behind)) = rest.split_first_chunk::<4>() {
        let (input, next) = behind.split_at(u32::from_le_bytes(*length) as usize);
        io::stdout().write_all(&answer(input))?;
        rest = next;
    }
    Ok(())
}
