//! From an image to a file and back: "The list of pairs read from a file that we wrote, before any is set aside, has those
//! same msgids in that order". What we write is read by the judge and by us; with each msgstr filled in it sets them.

use oracle::image::layout::LAYOUTS;
use oracle::image::reading::Reading;
use oracle::patches::texts;
use oracle::po::draw::drawn;
use oracle::po::file::parsed;
use oracle::po::fixed::STRINGS;
use oracle::po::words::image;
use oracle::po::{Call, Lent};
use oracle::random::Random;

use crate::{fault, Found};

/// So many images at random, and the fixed one in each layout.
pub fn run(count: usize, found: &mut Vec<Found>) -> String {
    let mut random = Random(2);
    let mut calls: Vec<Call> =
        LAYOUTS.map(|layout| of(layout.0, 0, image(layout.0, STRINGS))).into();
    while calls.len() < count {
        let call = drawn(&mut random);
        if call.layout <= 4 && call.mode <= 1 && call.reading().refusal() == 0 {
            calls.push(of(call.layout, call.mode, call.image));
        }
    }
    let mut pairs = 0;
    for call in calls {
        match trip(&call) {
            Ok(count) => pairs += count,
            Err(fault) => found.push(fault),
        }
    }
    format!("{count} images written as files, {pairs} pairs in them, read back and set each")
}

/// The call that writes the file of an image.
fn of(layout: u8, mode: u8, image: Vec<u8>) -> Call {
    let call = Call { file: None, layout, mode, image, lent: Lent::default() };
    let room = call.lengths().unwrap()[0];
    call.lending(room + 8)
}

/// What is answered, where it is the judge's.
fn answered(call: &Call) -> Result<Vec<u8>, Found> {
    match fault(call) {
        Some(what) => Err(wrong(what, call)),
        None => {
            let answer = exports::po::answered(call);
            Ok(answer.lent.out[..answer.end.unwrap()].to_vec())
        }
    }
}

fn wrong(what: &str, call: &Call) -> Found {
    Found { what: what.into(), call: call.clone() }
}

/// The number of pairs, or what is wrong.
fn trip(call: &Call) -> Result<usize, Found> {
    let file = answered(call)?;
    let ids = writable(&call.reading());
    let read = parsed(&file, None);
    let is_told =
        |(pair, id): (&oracle::po::file::Pair, &String)| pair.id == *id && pair.text.is_empty();
    let is_read = read.pairs.len() == ids.len() && read.pairs.iter().zip(&ids).all(is_told);
    if read.is_outside || !is_read {
        return Err(wrong("what was written is not read as those pairs", call));
    }
    // As it is, it says nothing; filled, it sets each.
    let values: Vec<String> = (0..ids.len()).map(|i| format!("{i} \u{e9}\n\"")).collect();
    sets(call, &file, &[])?;
    sets(call, &filled(&file, &values), &values)?;
    Ok(ids.len())
}

/// The values of plain strings that are written, in id order, each once.
fn writable(reading: &Reading) -> Vec<String> {
    let mut ids: Vec<String> = vec![];
    let identifiers = texts::identifiers(reading);
    for (string, is_identifier) in reading.strings().iter().zip(identifiers) {
        let Ok(text) = String::from_utf16(&texts::units(reading, string)) else { continue };
        let is_low = text.chars().any(|one| one < ' ' && one != '\n' && one != '\t');
        if !is_identifier && !text.is_empty() && !is_low && !ids.contains(&text) {
            ids.push(text);
        }
    }
    ids
}

/// The file with a msgstr for each pair, in order.
fn filled(file: &[u8], values: &[String]) -> Vec<u8> {
    let mut file = String::from_utf8(file.to_vec()).unwrap();
    for value in values {
        let value = value.replace('"', "\\\"").replace('\n', "\\n");
        file = file.replacen("\nmsgstr \"\"\n", &format!("\nmsgstr \"{value}\"\n"), 1);
    }
    file.into_bytes()
}

/// The file has to set these values, one for each pair that could be written, and nothing else.
fn sets(call: &Call, file: &[u8], values: &[String]) -> Result<(), Found> {
    let read = Call { file: Some(file.to_vec()), ..call.clone() };
    let room = read.lengths().unwrap().into_iter().max().unwrap();
    let read = read.lending(room + 3);
    let image = answered(&read)?;
    let ids = writable(&call.reading());
    let (old, new) = (call.reading(), Reading { image: &image, ..call.reading() });
    let identifiers = texts::identifiers(&old);
    let is_right = |(id, (before, after)): (usize, _)| {
        let was = texts::units(&old, before);
        let told = ids.iter().position(|id| id.encode_utf16().eq(was.iter().copied()));
        let value = told.and_then(|place| values.get(place)).filter(|_| !identifiers[id]);
        let wanted = value.map_or(was, |value| value.encode_utf16().collect());
        texts::units(&new, after) == wanted
    };
    let is_set = old.strings().iter().zip(&new.strings()).enumerate().all(is_right);
    if new.refusal() == 0 && is_set {
        return Ok(());
    }
    Err(wrong("what was filled in is not set", &read))
}
