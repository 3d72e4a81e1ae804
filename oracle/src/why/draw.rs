//! Random calls: strings that lie over each other, beside each other and apart, and values that mostly fit.

use super::reading::Asked;
use super::INPUTS;
use crate::image::layout::*;
use crate::image::maker::{make, MIDDLE, ODD, SMALL};
use crate::image::reading::{Reading, Stored};
use crate::index;
use crate::index::images::{image, KINDS};
use crate::job::packing::MODES;
use crate::patches::draw as patches;
use crate::random::Random;
use crate::stream::Call;

pub fn call(random: &mut Random) -> Call {
    let (layout, image) = match random.below(8) {
        0 | 1 => index::draw::image(random),
        2 | 3 => prepared(random),
        _ => crowded(random),
    };
    let reading = Reading { layout, image: &image, slip: None };
    let strings = if reading.refusal() == 0 { reading.strings() } else { vec![] };
    let chosen = chosen(random, &strings);
    let value = match strings.get(chosen) {
        Some(own) => value(random, &reading, own),
        None => random.pick(&[&b""[..], b"a", "é".as_bytes(), b"\xff"]).to_vec(),
    };
    let count = strings.len() as u64;
    let id = match random.below(24) {
        0 => random.pick(&[count, count + 1, 1 << 32, u64::MAX, (1 << 32) + chosen as u64]),
        _ => chosen as u64,
    };
    let index = index::draw::index(random, layout, &image);
    let mode = random.pick(&MODES);
    if value.len() + image.len() > INPUTS {
        return call(random);
    }
    Asked { layout, mode, id, value: &value, image: &image }.call(&index)
}

/// A string, mostly a narrow one; 0 where there is none.
fn chosen(random: &mut Random, strings: &[Stored]) -> usize {
    let mut pick = || if strings.is_empty() { 0 } else { random.within(0..strings.len()) };
    let (first, second) = (pick(), pick());
    if strings.get(first).is_some_and(|string| string.wide) {
        second
    } else {
        first
    }
}

/// An image as patches are drawn for, patched once before at times.
fn prepared(random: &mut Random) -> (Layout, Vec<u8>) {
    let (layout, shape) = (random.pick(&LAYOUTS), random.pick(&[SMALL, ODD, ODD, MIDDLE]));
    let made = make(random, layout, shape);
    patches::prepared(random, made).unwrap_or_else(|| prepared(random))
}

/// A few strings between edges that all of them keep to: with the same bytes, some of them, none; the one's end the other's
/// start; empty ones anywhere.
fn crowded(random: &mut Random) -> (Layout, Vec<u8>) {
    let mut edges = vec![0];
    for _ in 0..random.within(2..8) {
        edges.push(edges[edges.len() - 1] + random.within(1..5));
    }
    let count = random.within(1..8);
    let strings: Vec<String> = (0..count).map(|_| between(random, &edges)).collect();
    let strings = format!("_{} {}", edges[edges.len() - 1], strings.join(" "));
    let (layout, kinds) = (random.pick(&LAYOUTS), random.pick(&KINDS));
    (layout, image(layout, &strings, kinds))
}

/// A string from an edge to one behind it, or an empty one.
fn between(random: &mut Random, edges: &[usize]) -> String {
    let last = edges.len() - 1;
    let from = random.within(0..last);
    let to = (from + random.pick(&[1, 1, 1, 1, 2, 3])).min(last);
    let (mut start, mut count) = (edges[from], edges[to] - edges[from]);
    let mut kind = random.pick(&["n", "n", "n", "N", "N", "w", "W"]);
    if kind.eq_ignore_ascii_case("w") {
        // One of an odd number of bytes reaches up to the one edge or to the other.
        start += random.within(0..count % 2 + 1);
        count /= 2;
    }
    if random.one_in(6) {
        (start, count) = (random.within(0..edges[last] + 1), 0);
        kind = random.pick(&["n", "n", "N", "w"]);
    }
    let pair = if random.one_in(6) { "+" } else { "" };
    format!("{kind}{count}@{start}{pair}")
}

/// Mostly ASCII of the string's length; by one shorter or longer; what is just not ASCII, of that length; any other.
fn value(random: &mut Random, reading: &Reading, own: &Stored) -> Vec<u8> {
    let length = (own.end - own.start) as usize;
    let mut value: Vec<u8> = (0..length).map(|_| random.pick(b"\0 az\x7f")).collect();
    match random.below(16) {
        0 => {
            value.pop();
        }
        1 => value.push(b'x'),
        2 if length > 1 => {
            let at = random.within(0..length - 1);
            value[at..at + 2].copy_from_slice(random.pick(&["\u{80}", "é"]).as_bytes());
        }
        // As many characters as the string has bytes.
        3 if length > 0 => {
            let at = random.within(0..length);
            value.splice(at..at + 1, "ö".bytes());
        }
        4 if length > 0 => value[random.within(0..length)] = 0x80,
        5..8 => {
            let of = random.pick(&patches::VALUES);
            value = patches::value(random, reading, own, of);
        }
        _ => {}
    }
    value
}
