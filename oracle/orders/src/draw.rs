//! Pairs and lists of patches at random.

use oracle::image::layout::{Layout, LAYOUTS};
use oracle::image::maker::{make, MIDDLE, ODD, SMALL};
use oracle::image::reading::{Reading, Stored};
use oracle::job::packing::MODES;
use oracle::patches::draw::{prepared, text, value, Value, VALUES};
use oracle::patches::odd::packed;
use oracle::patches::orders::{judged, Case, Step};
use oracle::patches::Kind;
use oracle::random::Random;

/// So many patches, and an order of them that is not the one drawn.
pub fn drawn(random: &mut Random, count: usize) -> (Case, Vec<usize>) {
    let mut order: Vec<usize> = (0..count).collect();
    while order.is_sorted() {
        shuffle(random, &mut order);
    }
    loop {
        if let Some(mut case) = case(random, count) {
            case.room = room(random, &case, &order);
            return (case, order);
        }
    }
}

fn shuffle(random: &mut Random, all: &mut [usize]) {
    for i in (1..all.len()).rev() {
        all.swap(i, random.within(0..i + 1));
    }
}

/// Most often enough for all results; else as much as one of them takes, or a byte less.
fn room(random: &mut Random, case: &Case, order: &[usize]) -> usize {
    let drawn: Vec<usize> = (0..order.len()).collect();
    let walks = [&drawn, order].map(|order| case.walk(order, &judged));
    let lengths: Vec<usize> = walks.iter().flat_map(|walk| walk.lengths()).collect();
    let Some(most) = lengths.iter().max() else { return case.image.len() };
    match random.below(10) {
        0 => random.pick(&lengths) - 1,
        1 => random.pick(&lengths),
        _ => most + random.within(0..40),
    }
}

fn case(random: &mut Random, count: usize) -> Option<Case> {
    let (layout, image) = image(random)?;
    let reading = Reading { layout, image: &image, slip: None };
    let strings = if reading.refusal() == 0 { reading.strings() } else { vec![] };
    if strings.len() < count && !random.one_in(12) {
        return None;
    }
    let mut ids: Vec<usize> = (0..strings.len()).collect();
    shuffle(random, &mut ids);
    // In some, all values have the length that the string has.
    let is_sized = random.one_in(4);
    let mut draw = Draw { reading, strings, ids, is_sized, steps: vec![] };
    for _ in 0..count {
        let step = draw.step(random);
        draw.steps.push(step);
    }
    let (steps, mode, room) = (draw.steps, random.pick(&MODES), usize::MAX);
    Some(Case { layout, mode, room, image, steps })
}

fn image(random: &mut Random) -> Option<(Layout, Vec<u8>)> {
    let layout = random.pick(&LAYOUTS);
    let shape = match random.below(40) {
        0 => MIDDLE,
        1..5 => return Some((layout, identifiers(random, layout))),
        5..22 => ODD,
        _ => SMALL,
    };
    let made = make(random, layout, shape);
    prepared(random, made)
}

/// Many identifiers, and few strings that are none.
fn identifiers(random: &mut Random, layout: Layout) -> Vec<u8> {
    let mut string = || {
        let kind = random.pick(&["N", "N", "N", "W", "n", "w"]);
        format!("{kind}{}", random.below(4))
    };
    let strings: Vec<String> = (0..12).map(|_| string()).collect();
    packed(layout.0, &strings.join(" ")).image()
}

/// What is drawn for one image.
struct Draw<'a> {
    reading: Reading<'a>,
    strings: Vec<Stored>,
    /// Those that no patch has yet, in any order.
    ids: Vec<usize>,
    is_sized: bool,
    steps: Vec<Step>,
}

impl Draw<'_> {
    fn step(&mut self, random: &mut Random) -> Step {
        match random.below(12) {
            0..5 => {
                let (id, value) = self.edit(random);
                Step::by_id(id, value)
            }
            5..9 => self.by_value(random),
            _ => {
                let most = if random.one_in(24) { 0 } else { random.within(1..7) };
                let count = if random.one_in(16) { most } else { most.min(self.ids.len()) };
                let edits: Vec<_> = (0..count).map(|_| self.edit(random)).collect();
                Step::pass(&edits)
            }
        }
    }

    /// A string and its value: most often one that no patch has yet.
    fn edit(&mut self, random: &mut Random) -> (u32, Vec<u8>) {
        let next = self.ids.pop().filter(|_| !random.one_in(24));
        let id = next.unwrap_or_else(|| random.within(0..self.strings.len() + 1));
        let Some(own) = self.strings.get(id) else { return (id as u32, b"a".to_vec()) };
        let of = match random.pick(&VALUES) {
            _ if self.is_sized => Value::EqualAscii,
            Value::NotUtf8 if !random.one_in(8) => Value::Another,
            of => of,
        };
        (id as u32, value(random, &self.reading, own, of))
    }

    /// The old value is most often that of the string; else the one that the patch before writes, or looks for.
    fn by_value(&mut self, random: &mut Random) -> Step {
        let (id, mut new) = self.edit(random);
        let texts: Vec<Vec<u8>> =
            self.strings.iter().map(|string| text(&self.reading, string).into_bytes()).collect();
        let mut old = texts.get(id as usize).cloned().unwrap_or_default();
        let before = self.steps.last().filter(|step| step.kind != Kind::Pass);
        match (random.below(12), before) {
            (0..3, Some(before)) if texts.contains(&before.new) => old.clone_from(&before.new),
            (3..5, Some(before)) if before.kind == Kind::ByValue => old.clone_from(&before.old),
            (5..7, Some(before)) if before.kind == Kind::ByValue => new.clone_from(&before.old),
            _ => {}
        }
        Step::by_value(old, new)
    }
}
