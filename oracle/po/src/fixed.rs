//! The fixed calls, in every layout and both modes.

use oracle::image::layout::{Layout, LAYOUTS};
use oracle::po::causes::orders;
use oracle::po::fixed::{cases, rooms, spaces, steps, Case, End};
use oracle::po::Call;

use crate::{fault, Found};

/// All of one layout and mode, by their names; and whether the judge itself answers as they are named.
pub fn all(layout: Layout, mode: u8) -> Vec<(String, Call, bool)> {
    let cases = cases(layout, mode);
    let is_accepted = |case: &&Case| !matches!(case.end, End::Refused(_));
    let mut all = vec![];
    for case in cases.iter().filter(is_accepted) {
        all.extend(named(&case.name, "its room", rooms(&case.call)));
    }
    for case in cases.iter().step_by(7) {
        all.extend(named(&case.name, "what is lent", spaces(&case.call)));
    }
    for (name, call) in steps(layout, mode) {
        all.extend(named(name, "its room", rooms(&call)));
        all.extend(named(name, "what is lent", spaces(&call)));
    }
    let whole = cases.into_iter().chain(orders(layout, mode));
    all.extend(whole.map(|case| {
        let is_as_named = case.is_as_named();
        (case.name, case.call, is_as_named)
    }));
    all
}

fn named(name: &str, of: &str, calls: Vec<Call>) -> impl Iterator<Item = (String, Call, bool)> {
    let name = format!("{name}: {of}");
    calls.into_iter().map(move |call| (name.clone(), call, true))
}

/// Each call, in every layout and both modes.
pub fn run(found: &mut Vec<Found>) -> String {
    let mut count = 0;
    for (layout, mode) in LAYOUTS.into_iter().flat_map(|layout| [(layout, 0), (layout, 1)]) {
        for (name, call, is_as_named) in all(layout, mode) {
            count += 1;
            let fault = if is_as_named { fault(&call) } else { Some("not as it is named") };
            if let Some(fault) = fault {
                found.push(Found { what: format!("{name}: {fault}"), call });
            }
        }
    }
    format!("{count} fixed calls, in five layouts and both modes, are answered as they should be")
}
