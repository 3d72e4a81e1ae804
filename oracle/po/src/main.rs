//! Translators' files, document 02, No. 1, by our exports: each answer is held to a second reading, the number, the output and
//! all that was lent, with fixed calls, at limits, on the way from an image to a file and back, and at random. Ends with 1 at a
//! difference, where a class of calls is empty, and where a mistake on purpose is not found.
//!   po               the comparison
//!   po record DIR    the fixed calls and some random ones, and what is answered, as exports/calls.c reads and writes them
//!   po sharp         how many calls find each mistake on purpose
//!   po long          a file that would have 2^32 bytes: it takes its time

mod fixed;
mod limits;
mod record;
mod sharp;
mod show;
mod tally;
mod trip;

use std::env;
use std::path::Path;
use std::process::ExitCode;

use oracle::po::draw::drawn;
use oracle::po::Call;
use oracle::random::Random;
use tally::Tally;

const RANDOM: usize = 10_000;
const TRIPS: usize = 600;

/// A call that is not answered as it should be.
pub struct Found {
    pub what: String,
    pub call: Call,
}

fn main() -> ExitCode {
    let words: Vec<String> = env::args().skip(1).collect();
    match words.iter().map(String::as_str).collect::<Vec<_>>()[..] {
        [] => compare(),
        ["record", folder] => {
            record::write(Path::new(folder)).expect(folder);
            ExitCode::SUCCESS
        }
        ["sharp"] => sharp::all(),
        ["long"] => limits::long(),
        _ => {
            eprintln!("usage: po, po record DIR, po sharp, po long");
            ExitCode::from(2)
        }
    }
}

fn compare() -> ExitCode {
    let mut found = vec![];
    let mut lines = vec![fixed::run(&mut found)];
    let mut tally = Tally::default();
    let mut random = Random(1);
    for _ in 0..RANDOM {
        let call = drawn(&mut random);
        match fault(&call) {
            None => tally.take(&call),
            Some(what) => found.push(Found { what: what.into(), call }),
        }
    }
    lines.extend(tally.lines());
    lines.push(trip::run(TRIPS, &mut found));
    if let Some(least) = found.iter().min_by_key(|found| show::size(&found.call)) {
        println!("oracle: po: {} calls are not as they should be; the smallest:", found.len());
        println!("oracle: po: {}\n{}", least.what, show::call(&least.call));
        return ExitCode::FAILURE;
    }
    let (line, are_held) = limits::run();
    lines.push(line);
    let (line, are_found) = sharp::report();
    lines.push(line);
    lines.iter().for_each(|line| println!("oracle: po: {line}"));
    let empty = tally.empty();
    empty.iter().for_each(|name| println!("oracle: po: there is none of the class: {name}"));
    ExitCode::from(u8::from(!are_held || !are_found || !empty.is_empty()))
}

const JUDGE: &str = "an answer is not the judge's";
const RUST: &str = "the judge's single patches are not the Rust's";

/// What is wrong with a call, if anything is.
pub fn fault(call: &Call) -> Option<&'static str> {
    let theirs = call.answer(None);
    if call.held() != theirs {
        return Some(RUST);
    }
    (exports::po::answered(call) != theirs).then_some(JUDGE)
}
