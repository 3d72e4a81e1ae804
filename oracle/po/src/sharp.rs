//! Mistakes on purpose: the second reading with one at a time, over the fixed calls and random ones. A program that made it
//! would answer some of them otherwise. What only limits show, they have to.

use std::process::ExitCode;

use oracle::image::layout::LAYOUTS;
use oracle::po::draw::drawn;
use oracle::po::slip::{Slip, SLIPS};
use oracle::po::{Answer, Call};
use oracle::random::Random;

use crate::{fixed, limits};

/// So many calls have to find each, and so many random ones are looked at.
const LEAST: usize = 3;
const RANDOM: usize = 500;

pub fn report() -> (String, bool) {
    let calls = calls();
    let is_found_at = |slip: &Slip| limits::SLIPS.contains(slip);
    let found = |slip: Slip| {
        let finds = |(call, answer): &&(Call, Answer)| call.answer(Some(slip)) != *answer;
        calls.iter().filter(finds).take(LEAST).count()
    };
    let missed: Vec<Slip> =
        SLIPS.iter().copied().filter(|slip| !is_found_at(slip) && found(*slip) < LEAST).collect();
    let at_limits: Vec<Slip> =
        limits::SLIPS.into_iter().filter(|slip| !limits::finds(*slip)).collect();
    let line = format!(
        "{} mistakes on purpose, {} of them at limits, {}",
        SLIPS.len(),
        limits::SLIPS.len(),
        match missed.len() + at_limits.len() {
            0 => "each found".into(),
            _ => format!("not found: {missed:?}, at limits: {at_limits:?}"),
        }
    );
    (line, missed.is_empty() && at_limits.is_empty())
}

/// How many find each.
pub fn all() -> ExitCode {
    let calls = calls();
    for slip in SLIPS {
        let finds = |(call, answer): &&(Call, Answer)| call.answer(Some(*slip)) != *answer;
        println!("{} find {slip:?}", calls.iter().filter(finds).count());
    }
    ExitCode::SUCCESS
}

/// The fixed calls of one layout in each mode, and random ones, with their answers.
fn calls() -> Vec<(Call, Answer)> {
    let mut random = Random(3);
    let fixed = [(LAYOUTS[0], 0), (LAYOUTS[4], 1)].into_iter();
    let fixed = fixed.flat_map(|(layout, mode)| fixed::all(layout, mode));
    let calls = fixed.map(|(_, call, _)| call);
    let calls = calls.chain((0..RANDOM).map(|_| drawn(&mut random)));
    calls
        .map(|call| {
            let answer = call.answer(None);
            (call, answer)
        })
        .collect()
}
