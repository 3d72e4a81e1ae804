//! String patches in two orders, document 02, No. 12: where all calls are accepted, and no string is set by two, both
//! orders end in the same image. Every call goes through our exports and is held to the judge; then the two ends are
//! compared, and with one pass over all edits. Ends with 1 at a difference, where a class of cases is empty, and where a
//! mistake on purpose is not found.

mod draw;
mod sharp;
mod show;
mod tally;

use std::process::ExitCode;

use oracle::image::layout::LAYOUTS;
use oracle::job::packing::MODES;
use oracle::patches::orders::{end, pairs, Case, Walk};
use oracle::random::Random;
use tally::{fault, ours, Tally};

const PAIRS: usize = 10_000;
const LISTS: usize = 2_000;

/// A case that is not as it should be.
struct Found {
    what: String,
    case: Case,
    order: Vec<usize>,
}

fn main() -> ExitCode {
    let mut found = fixed();
    let (two, spoken) = random(12, PAIRS, |_| 2, &mut found);
    let (more, _) = random(13, LISTS, |random| random.within(3..6), &mut found);
    if let Some(least) = found.iter().min_by_key(|found| show::size(&found.case)) {
        println!("oracle: orders: {} cases are not as they should be; the smallest:", found.len());
        println!("oracle: orders: {}\n{}", least.what, show::case(&least.case, &least.order));
        return ExitCode::FAILURE;
    }
    let (mistakes, are_found) = sharp::report(&spoken);
    let pairs = pairs().len() * LAYOUTS.len() * MODES.len();
    let mut lines = vec![format!("{pairs} fixed pairs end as they should")];
    lines.extend(two.lines("pairs"));
    lines.push(two.conditions_line());
    lines.extend(more.lines("lists of 3 to 5"));
    lines.push(mistakes);
    lines.iter().for_each(|line| println!("oracle: orders: {line}"));
    let classes = [two.classes(), two.conditions(), more.classes()].concat();
    let empty: Vec<_> = classes.iter().filter(|(_, count)| *count == 0).collect();
    empty
        .iter()
        .for_each(|(name, _)| println!("oracle: orders: there is none of the class: {name}"));
    if !are_found {
        println!("oracle: orders: a mistake on purpose is not found, or found with none made");
    }
    ExitCode::from(u8::from(!empty.is_empty() || !are_found))
}

/// Each fixed pair in every layout and both modes.
fn fixed() -> Vec<Found> {
    let mut found = vec![];
    for (pair, layout) in pairs().iter().flat_map(|pair| LAYOUTS.map(|layout| (pair, layout))) {
        for mode in MODES {
            let case = pair.case(layout, mode);
            let walks = case.walks(&ours);
            let fault = fault(&case, &walks);
            if fault.is_some() || end(&walks) != Some(pair.end) {
                let what = format!("{}: {}", pair.name, fault.unwrap_or("not as it is named"));
                found.push(Found { what, case, order: vec![1, 0] });
            }
        }
    }
    found
}

/// The cases, and those of which the law speaks, with their ends.
fn random(
    seed: u64,
    cases: usize,
    count: fn(&mut Random) -> usize,
    found: &mut Vec<Found>,
) -> (Tally, Vec<(Case, Vec<u8>)>) {
    let mut random = Random(seed);
    let (mut tally, mut spoken) = (Tally::default(), vec![]);
    for _ in 0..cases {
        let count = count(&mut random);
        let (case, order) = draw::drawn(&mut random, count);
        let drawn: Vec<usize> = (0..count).collect();
        let walks: [Walk; 2] = [&drawn, &order].map(|order| case.walk(order, &ours));
        let is_spoken = tally.take(&case, &walks);
        if let Some(what) = fault(&case, &walks) {
            found.push(Found { what: what.into(), case, order });
        } else if is_spoken {
            let [Walk { end, .. }, _] = walks;
            spoken.push((case, end.unwrap()));
        }
    }
    (tally, spoken)
}
