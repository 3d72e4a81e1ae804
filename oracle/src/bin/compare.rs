//! compare FAMILY CALLS MINE THEIRS: holds the answers in MINE to the judge's in THEIRS, frame by frame.
//! Prints one line with the counts, then the smallest call whose answers differ and that no departure
//! explains.

use std::process::ExitCode;

use oracle::family::{Argument, Departure, Family};
use oracle::stream::{Answer, Call};

/// A call on which the two sides differ. An answer is absent where a file ends before it.
struct Difference {
    place: usize,
    call: Call,
    mine: Option<Answer>,
    theirs: Option<Answer>,
}

fn main() -> ExitCode {
    let given = Family::of_arguments();
    let Some((family, [calls, mine, theirs])) =
        given.as_ref().map(|(family, files)| (family, &files[..]))
    else {
        eprintln!("usage: compare FAMILY CALLS MINE THEIRS");
        return ExitCode::from(2);
    };
    let listed = family.departures;
    let bytes = [calls, mine, theirs].map(|file| std::fs::read(file).expect(file));
    let [mut calls, mut mine, mut theirs] = bytes.each_ref().map(|bytes| &bytes[..]);

    let (mut count, mut equal) = (0, 0);
    let mut departed = vec![0; listed.len()];
    let mut unexplained = vec![];
    while let Some(call) = Call::read(family, &mut calls) {
        count += 1;
        let length = call.buffer.len();
        let (mine, theirs) = (Answer::read(&mut mine, length), Answer::read(&mut theirs, length));
        if mine.is_some() && mine == theirs {
            equal += 1;
        } else if let Some(i) = departure(listed, &call, &mine, &theirs) {
            departed[i] += 1;
        } else {
            unexplained.push(Difference { place: count, call, mine, theirs });
        }
    }

    let departures: String =
        listed.iter().zip(departed).map(|(one, times)| format!(", {} {times}", one.name)).collect();
    let failures = unexplained.len();
    println!(
        "oracle: {}: {count} calls: equal {equal}{departures}, unexplained {failures}",
        family.name
    );
    if let Some(smallest) = unexplained.iter().min_by_key(|difference| size(difference)) {
        print!("{}", readable(smallest));
    }
    let rest = [calls, mine, theirs].map(<[u8]>::len);
    if rest != [0; 3] {
        println!("oracle: bytes past the last frame in calls, mine and theirs: {rest:?}");
    }
    ExitCode::from(u8::from(failures > 0 || rest != [0; 3]))
}

fn departure(
    listed: &[Departure],
    call: &Call,
    mine: &Option<Answer>,
    theirs: &Option<Answer>,
) -> Option<usize> {
    let (mine, theirs) = (mine.as_ref()?, theirs.as_ref()?);
    listed.iter().position(|departure| (departure.explains)(call, mine, theirs))
}

/// The fewest buffer bytes, then the fewest bits set. A missing answer counts as larger than any
/// difference, and there the first one tells most: both sides answer in order.
fn size(Difference { place, call, mine, theirs }: &Difference) -> (bool, usize, u32) {
    if mine.is_none() || theirs.is_none() {
        return (true, *place, 0);
    }
    let in_arguments: u32 = call.arguments.iter().map(|word| word.count_ones()).sum();
    let in_buffer: u32 = call.buffer.iter().map(|byte| byte.count_ones()).sum();
    (false, call.buffer.len(), in_arguments + in_buffer)
}

fn readable(Difference { place, call, mine, theirs }: &Difference) -> String {
    let mut text = format!("the smallest of them, call {place}: {}\n", call.function.name);
    for (argument, word) in call.function.arguments.iter().zip(call.arguments) {
        text += &format!("  {} = {word:#x}", argument.name());
        text += &match argument {
            Argument::Delta => format!(" ({})\n", word as i32),
            _ => "\n".into(),
        };
    }
    text += &format!("  buffer of {} bytes:{}\n", call.buffer.len(), hex(&call.buffer));
    for (side, answer) in [("mine", mine), ("theirs", theirs)] {
        text += &match answer {
            None => format!("  {side}: no answer\n"),
            Some(Answer { status, results, buffer }) => {
                let buffer = hex(buffer);
                format!("  {side}: status {status}, results {results:x?}, buffer{buffer}\n")
            }
        };
    }
    text
}

fn hex(bytes: &[u8]) -> String {
    bytes.iter().map(|byte| format!(" {byte:02x}")).collect()
}
