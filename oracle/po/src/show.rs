//! A call in words, and how the two answers differ.

use oracle::patches::texts;
use oracle::po::{Answer, Call};

/// What a call takes to be written down.
pub fn size(call: &Call) -> usize {
    call.image.len() + call.file.as_ref().map_or(0, Vec::len) + call.lent.out.len()
}

pub fn call(call: &Call) -> String {
    let (mode, space) = (call.mode, call.space());
    let lent = &call.lent;
    let mut lines = vec![format!(
        "  layout {}, mode {mode}; lent: text {} of {}, ends {} of {}, work {} of {}, room {}",
        call.layout,
        lent.text.len(),
        space.text,
        lent.ends.len(),
        space.ends,
        lent.work.len(),
        space.work,
        lent.out.len()
    )];
    if let Some(lengths) = call.lengths() {
        lines.push(format!("  lengths, step by step: {lengths:?}"));
    }
    lines.extend(strings(call));
    match &call.file {
        None => lines.push("  a file is written".into()),
        Some(file) => {
            lines.push("  the file:".into());
            let parts = file.split_inclusive(|byte| *byte == b'\n');
            lines.extend(parts.map(|line| format!("    {}", line.escape_ascii())));
        }
    }
    let (theirs, ours) = (call.answer(None), exports::po::answered(call));
    lines.push(format!("  the judge: {}", answer(&theirs)));
    lines.push(format!("  ours:      {}", answer(&ours)));
    lines.extend(differences(&theirs, &ours));
    let hex: String = call.image.iter().map(|byte| format!("{byte:02x}")).collect();
    lines.push(format!("  image {hex}"));
    lines.join("\n")
}

fn strings(call: &Call) -> Vec<String> {
    if call.layout > 4 || call.reading().refusal() != 0 {
        return vec!["  an image that is none".into()];
    }
    let reading = call.reading();
    let identifiers = texts::identifiers(&reading);
    let string = |(id, string): (usize, &oracle::image::reading::Stored)| {
        let width = if string.wide { "wide" } else { "narrow" };
        let kind = if identifiers[id] { ", identifier" } else { "" };
        let said = String::from_utf16_lossy(&texts::units(&reading, string));
        format!("  string {id}: {width}{kind}, {} to {}: {said:?}", string.start, string.end)
    };
    reading.strings().iter().enumerate().map(string).collect()
}

fn answer(answer: &Answer) -> String {
    match answer.end {
        Ok(length) => format!("{length} bytes"),
        Err(number) => format!("refused with {number}"),
    }
}

/// The first place where a part of what was lent is otherwise.
fn differences(theirs: &Answer, ours: &Answer) -> Vec<String> {
    let (them, us) = (&theirs.lent, &ours.lent);
    let place = |is: &dyn Fn(usize) -> bool, length: usize| (0..length).find(|at| is(*at));
    let parts = [
        ("out", place(&|at| them.out[at] != us.out[at], us.out.len())),
        ("text", place(&|at| them.text[at] != us.text[at], us.text.len())),
        ("ends", place(&|at| them.ends[at] != us.ends[at], us.ends.len())),
        ("work", place(&|at| them.work[at] != us.work[at], us.work.len())),
    ];
    let lines = parts.into_iter().filter_map(|(name, place)| Some((name, place?)));
    lines.map(|(name, place)| format!("  {name} differs first at {place}")).collect()
}
