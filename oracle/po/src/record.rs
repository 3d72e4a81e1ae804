//! The recorded calls and answers.

use std::fs::{create_dir_all, File};
use std::io::{self, BufWriter, Write};
use std::path::Path;

use oracle::image::layout::LAYOUTS;
use oracle::po::causes::orders;
use oracle::po::draw::drawn;
use oracle::po::fixed::{cases, rooms, spaces, steps};
use oracle::po::Call;
use oracle::random::Random;

const RANDOM: usize = 100;

pub fn write(folder: &Path) -> io::Result<()> {
    create_dir_all(folder)?;
    let file = |name: &str| File::create(folder.join(name)).map(BufWriter::new);
    let (mut to, mut answers) = (file("calls")?, file("answers")?);
    for call in calls() {
        exports::po::record(&call, &call.answer(None), &mut to, &mut answers)?;
    }
    to.flush()?;
    answers.flush()
}

/// Each case in one layout and mode, another than its neighbours; and random calls.
fn calls() -> Vec<Call> {
    let ways: Vec<_> = LAYOUTS.into_iter().flat_map(|layout| [(layout, 0), (layout, 1)]).collect();
    let mut calls = vec![];
    for (place, (layout, mode)) in ways.iter().copied().enumerate() {
        let cases = cases(layout, mode).into_iter().chain(orders(layout, mode));
        calls.extend(cases.skip(place).step_by(ways.len()).map(|case| case.call));
        let steps = steps(layout, mode).into_iter().skip(place).step_by(ways.len());
        calls.extend(steps.flat_map(|(_, call)| [rooms(&call), spaces(&call)].concat()));
    }
    let mut random = Random(4);
    calls.extend((0..RANDOM).map(|_| drawn(&mut random)));
    calls
}
