//! departures FAMILY [CALLS]: each listed departure that the judge of the family recognises, shown by its smallest
//! inputs; then how many of the calls in the file show each. Ends with 1 where an input does not show its departure.

use std::fmt::Debug;
use std::process::ExitCode;

use oracle::family::Family;
use oracle::leaves::shifts;
use oracle::patches::judgement::{Judgement, DEPARTURES, UNLISTED};
use oracle::patches::{departure, small};
use oracle::stream::Call;

/// An input by its name: the departure that it is listed for, and the one that it shows.
type Shown<D> = (&'static str, Option<D>, Option<D>);

fn main() -> ExitCode {
    std::panic::set_hook(Box::new(|_| {}));
    let given = Family::of_arguments();
    match given.as_ref().map(|(family, files)| (family.name, *family, files.first())) {
        Some(("leaves", family, file)) => {
            let shown = shifts::shown().into_iter();
            let shown =
                shown.map(|(name, call, listed)| (name, Some(listed), shifts::departure(&call)));
            report(family, shown.collect(), &shifts::DEPARTURES, shifts::departure, file)
        }
        Some(("patches", family, file)) => {
            let shown = small::shown();
            let shown = shown.iter().map(|shown| match shown.judged() {
                Judgement { answer: Err(UNLISTED), .. } => (shown.name, shown.departure, None),
                Judgement { departure, .. } => (shown.name, shown.departure, departure),
            });
            report(family, shown.collect(), &DEPARTURES, departure, file)
        }
        _ => {
            eprintln!("usage: departures leaves|patches [CALLS]");
            ExitCode::from(2)
        }
    }
}

fn report<D: Copy + PartialEq + Debug>(
    family: &Family,
    shown: Vec<Shown<D>>,
    all: &[D],
    departure: fn(&Call) -> Option<D>,
    file: Option<&String>,
) -> ExitCode {
    let mut failed = false;
    for (name, listed, found) in &shown {
        if listed != found {
            println!("oracle: {}: {name}: shows {found:?}, not {listed:?}", family.name);
            failed = true;
        }
    }
    println!("oracle: {}: {} inputs show their departures", family.name, shown.len());
    if let Some(file) = file {
        let bytes = std::fs::read(file).expect(file);
        let mut calls = &bytes[..];
        let mut times = vec![0; all.len()];
        while let Some(call) = Call::read(family, &mut calls) {
            if let Some(found) = departure(&call) {
                times[all.iter().position(|one| *one == found).unwrap()] += 1;
            }
        }
        let counted = all.iter().zip(times);
        let text: Vec<String> = counted.map(|(one, times)| format!("{one:?} {times}")).collect();
        println!("oracle: {}: departures among the calls: {}", family.name, text.join(", "));
    }
    ExitCode::from(u8::from(failed))
}
