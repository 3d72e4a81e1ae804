//! A second reading of document 02, No. 1: a file written from an image.

use std::collections::HashMap;

use super::slip::Slip;
use super::{Call, Made};
use crate::image::reading::Stored;
use crate::patches::texts;

pub(super) fn run(call: &Call, slip: Option<Slip>) -> Made {
    let early = |number| Made { end: Err(number), is_used: false };
    if call.layout > 4 {
        return early(15);
    }
    match call.reading().refusal() {
        0 => {}
        number => return early(number),
    }
    let mut asked = call.space().work;
    if slip == Some(Slip::WriterSpaceByOne) {
        asked = asked.saturating_sub(1);
    }
    let file = written(call, slip);
    let room = call.lent.out.len() + usize::from(slip == Some(Slip::WriterRoomByOne));
    let is_short = call.lent.work.len() < asked;
    if is_short && !(slip == Some(Slip::WriterSpaceAfterRoom) && file.len() > room) {
        return early(13);
    }
    let end = if file.len() > room { Err(13) } else { Ok(file) };
    Made { end, is_used: true }
}

/// What of the file has room, which nothing of may be there: a mistake on purpose.
pub(super) fn put_part(call: &Call, out: &mut [u8]) {
    if call.layout <= 4 && call.reading().refusal() == 0 {
        let file = written(call, None);
        let length = file.len().min(out.len());
        out[..length].copy_from_slice(&file[..length]);
    }
}

/// A string that may be written.
struct Entry {
    wide: bool,
    is_identifier: bool,
    units: Vec<u16>,
}

/// The file that an image gives.
pub fn written(call: &Call, slip: Option<Slip>) -> Vec<u8> {
    let slips = |one| slip == Some(one);
    let reading = call.reading();
    let entry = |(string, is_identifier): (&Stored, bool)| Entry {
        wide: string.wide,
        is_identifier,
        units: texts::units(&reading, string),
    };
    let identifiers = texts::identifiers(&reading).into_iter();
    let all: Vec<Entry> = reading.strings().iter().zip(identifiers).map(entry).collect();
    let mut lowest: HashMap<&[u16], usize> = HashMap::new();
    for (at, entry) in all.iter().enumerate().filter(|(_, entry)| !entry.is_identifier) {
        lowest.entry(&entry.units).or_insert(at);
    }
    // "in id order, equal values once": the lowest plain string with the value tells it.
    let is_told = |at: usize| match slip {
        Some(slip) => is_told(&all, at, slip),
        None => lowest[&all[at].units[..]] != at,
    };
    let is_kept = |at: &usize| {
        let is_plain = !all[*at].is_identifier || slips(Slip::IdentifiersWritten);
        is_plain && is_writable(&all[*at].units, slip) && !is_told(*at)
    };
    let mut kept: Vec<&Entry> = (0..all.len()).filter(is_kept).map(|at| &all[at]).collect();
    if slips(Slip::SortedByValue) {
        kept.sort_by(|one, other| one.units.cmp(&other.units));
    }
    let mut file = String::new();
    if slips(Slip::HeaderWritten) && !kept.is_empty() {
        file += "msgid \"\"\nmsgstr \"Content-Type: text/plain; charset=UTF-8\\n\"\n\n";
    }
    for entry in kept {
        file += &pair(&entry.units, slip);
    }
    if slips(Slip::NoEmptyLineBehindLast) && !file.is_empty() {
        file.pop();
    }
    file.into_bytes()
}

/// "whose value is valid UTF-16 and not empty"; "Units below 32 other than newline and tab can't be written".
fn is_writable(units: &[u16], slip: Option<Slip>) -> bool {
    let slips = |one| slip == Some(one);
    let has = |unit: u16| units.contains(&unit);
    let is_low = |unit: &u16| *unit < 32 && *unit != 10 && *unit != 9;
    if units.is_empty() {
        return slips(Slip::EmptyWritten);
    }
    if slips(Slip::TabsPassedOver) && has(9)
        || slips(Slip::NewlinesPassedOver) && has(10)
        || slips(Slip::DeletePassedOver) && has(127)
    {
        return false;
    }
    let is_low_written = slips(Slip::ControlsWritten)
        || slips(Slip::ControlsEscaped)
        || slips(Slip::WideWithLowUnitsWritten) && units.iter().any(|unit| *unit > 127);
    let is_lone_written = slips(Slip::LoneSurrogatesWritten) || slips(Slip::LoneSurrogatesAsTheirs);
    (!units.iter().any(is_low) || is_low_written)
        && (String::from_utf16(units).is_ok() || is_lone_written)
}

/// Whether another string tells the value, with a mistake on purpose.
fn is_told(all: &[Entry], at: usize, slip: Slip) -> bool {
    let is_alike = |other: usize| {
        let (own, other) = (&all[at], &all[other]);
        let is_width_alike = own.wide == other.wide || slip != Slip::EqualByWidth;
        let is_counted = !other.is_identifier
            || matches!(slip, Slip::IdentifiersCounted | Slip::IdentifiersWritten);
        own.units == other.units && is_width_alike && is_counted
    };
    match slip {
        Slip::EqualWrittenTwice => false,
        Slip::EqualAmongNeighbours => at > 0 && is_alike(at - 1),
        Slip::HighestIdWritten => (at + 1..all.len()).any(is_alike),
        _ => (0..at).any(is_alike),
    }
}

/// "msgstr empty, each on one line, an empty line after each pair".
fn pair(units: &[u16], slip: Option<Slip>) -> String {
    let text = if slip == Some(Slip::LoneSurrogatesAsTheirs) {
        let is_told = |one: &Result<char, _>| one.is_ok();
        char::decode_utf16(units.iter().copied()).filter(is_told).flatten().collect()
    } else {
        String::from_utf16_lossy(units)
    };
    let escaped: String = text.chars().map(|one| escaped(one, slip)).collect();
    let told = if slip == Some(Slip::TextFilled) { &escaped[..] } else { "" };
    format!("msgid \"{escaped}\"\nmsgstr \"{told}\"\n\n")
}

fn escaped(one: char, slip: Option<Slip>) -> String {
    let slips = |of| slip == Some(of);
    match one {
        '\n' if slips(Slip::WrappedAtNewlines) => "\\n\"\n\"".into(),
        '\n' => "\\n".into(),
        '\t' if !slips(Slip::TabsRaw) => "\\t".into(),
        '"' if !slips(Slip::QuotesRaw) => "\\\"".into(),
        '\\' if !slips(Slip::BackslashesRaw) => "\\\\".into(),
        one if slips(Slip::ControlsEscaped) && (one as u32) < 32 => {
            format!("\\{:03o}", one as u32)
        }
        one if slips(Slip::BeyondAsciiEscaped) && !one.is_ascii() => {
            format!("\\u{:04x}", one as u32)
        }
        one => one.into(),
    }
}
