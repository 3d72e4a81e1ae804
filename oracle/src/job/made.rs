//! Jobs for the streams: recorded ones, which reach each refusal in each place, and random ones.

use hbc_decomp::write::serialize::build_minimal_modern;

use super::run;
use crate::image::damage::DAMAGES;
use crate::image::layout::*;
use crate::image::maker::{make, put_record, MIDDLE, SMALL};
use crate::leaves::record;
use crate::random::Random;

/// An input: the image record, and patch records.
#[derive(Clone)]
pub struct Job {
    head: Vec<u8>,
    records: Vec<Vec<u8>>,
}

impl Job {
    fn of(layout: Layout, image: &[u8]) -> Job {
        let mut head = vec![b'I', b'M', layout.0];
        head.extend((image.len() as u32).to_le_bytes());
        head.extend(image);
        Job { head, records: vec![] }
    }

    fn with(&self, records: &[&Vec<u8>]) -> Job {
        Job { records: records.iter().map(|record| record.to_vec()).collect(), ..self.clone() }
    }

    pub fn bytes(&self) -> Vec<u8> {
        [self.head.clone(), self.records.concat()].concat()
    }
}

fn record(mark: &[u8; 2], id: u32, bytes: &[u8]) -> Vec<u8> {
    let length = bytes.len() as u16;
    [&mark[..], &id.to_le_bytes(), &length.to_le_bytes(), bytes].concat()
}

fn id(random: &mut Random, image: &[u8], count: usize) -> u32 {
    let count = word(image, count);
    match random.below(24) {
        0 => random.pick(&[count, count.wrapping_add(1), u32::MAX]),
        _ => random.below(count.max(1).into()) as u32,
    }
}

const WORDS: [&str; 8] = ["", "a", "ok", "Größe", "été", "日本", "🦀", "settings"];
/// Not UTF-8: a lone byte, overlong, a surrogate, past the last code point, cut short.
const WRONG: [&[u8]; 5] =
    [b"\x80", b"\xc0\x80", b"\xed\xa0\x80", b"\xf4\x90\x80\x80", b"ab\xe2\x82"];

fn string_patch(random: &mut Random, image: &[u8]) -> Vec<u8> {
    let id = id(random, image, STRINGS);
    let value = match random.below(16) {
        0 => random.pick(&WRONG).to_vec(),
        1 => vec![b'x'; random.within(250..260)],
        2..6 => (0..random.within(0..10)).map(|_| random.below(128) as u8).collect(),
        _ => {
            let words: Vec<&str> = (0..random.within(1..3)).map(|_| random.pick(&WORDS)).collect();
            words.concat().into_bytes()
        }
    };
    record(b"ST", id, &value)
}

fn body_patch(random: &mut Random, image: &[u8]) -> Vec<u8> {
    let id = id(random, image, FUNCTIONS);
    let length = random.within(0..16);
    record(b"FB", id, &random.bytes(length))
}

fn any_patch(random: &mut Random, image: &[u8]) -> Vec<u8> {
    if random.one_in(2) {
        string_patch(random, image)
    } else {
        body_patch(random, image)
    }
}

/// A job on an image made at random, with any patches.
pub fn random(random: &mut Random) -> Job {
    let layout = random.pick(&LAYOUTS);
    let shape = if random.one_in(8) { MIDDLE } else { SMALL };
    let made = make(random, layout, shape);
    let image = match random.below(16) {
        0 => random.pick(&DAMAGES).1(random, &made).unwrap_or(made.image),
        _ => made.image,
    };
    let mut job = Job::of(layout, &image);
    for _ in 0..random.below(8) {
        job.records.push(any_patch(random, &image));
    }
    if random.one_in(16) {
        let length = random.within(0..job.bytes().len() + 1);
        let cut = job.bytes()[..length].to_vec();
        return Job { head: cut, records: vec![] };
    }
    job
}

// ---- Recorded jobs.

/// The image of document 01's row j, from the Rust; an accented label, then a longer body.
pub fn example() -> Vec<u8> {
    let strings = ["a", "bc"].map(String::from);
    let image = build_minimal_modern(97, &strings, &[1, 2, 3, 4]).unwrap();
    let job = Job::of(Layout(0), &image);
    job.with(&[&record(b"ST", 1, "Größe".as_bytes()), &record(b"FB", 0, &[1, 2, 3, 4, 5, 6])])
        .bytes()
}

/// An image all of whose strings have the same bytes, so that a rebuild makes it far larger.
fn shared(layout: Layout, strings: usize, length: usize) -> Vec<u8> {
    let overflows = if length < 255 { 0 } else { strings };
    let tables = HEADER + layout.record() + 4 + 4 * strings + 8 * overflows;
    let mut image = vec![0; (tables + length).next_multiple_of(4)];
    image[..8].copy_from_slice(&MAGIC.to_le_bytes());
    let words = [1, 1, 0, strings, overflows, length].map(|count| count as u32);
    words.iter().enumerate().for_each(|(i, word)| set_word(&mut image, FUNCTIONS + 4 * i, *word));
    let kinds = HEADER + layout.record();
    set_word(&mut image, kinds, strings as u32);
    for i in 0..strings {
        let entry = if overflows > 0 { 0xff << 24 | i << 1 } else { length << 24 };
        set_word(&mut image, kinds + 4 + 4 * i, entry as u32);
        if overflows > 0 {
            set_word(&mut image, kinds + 4 + 4 * strings + 8 * i + 4, length as u32);
        }
    }
    let storage = image.len();
    image[tables..tables + length].fill(b'z');
    image.extend([1, 2, 3, 4]);
    image.extend([0; FOOTER]);
    // One small record, whose body is all of the tail.
    let number = layout.size().set(record::OFFSET.set(0, storage as u64), 4);
    put_record(layout, &mut image, 0, number);
    image
}

/// Jobs in which the patch `bad` is refused with `number` as the first, the middle and the last record.
fn in_each_place(random: &mut Random, job: &Job, bad: &Vec<u8>, number: u32) -> Option<Vec<Job>> {
    let image = &job.head[7..];
    let patches: Vec<Vec<u8>> = (0..40).map(|_| any_patch(random, image)).collect();
    let good = |with: &[&Vec<u8>]| run(&job.with(with).bytes()).is_ok();
    let (a, b) = patches.iter().find_map(|a| {
        let b = patches.iter().find(|b| good(&[a, b]) && good(&[b]))?;
        good(&[a]).then_some((a, b))
    })?;
    let jobs = [job.with(&[bad, a, b]), job.with(&[a, bad, b]), job.with(&[a, b, bad])];
    let refused = |(i, job): (usize, &Job)| run(&job.bytes()) == Err((i as u64 + 1, number));
    jobs.iter().enumerate().all(refused).then(|| jobs.to_vec())
}

/// Searches a job for which a patch of a kind is refused with a number.
fn find(
    random: &mut Random,
    layout: Layout,
    number: u32,
    bad: fn(&mut Random, &[u8]) -> Vec<u8>,
) -> Vec<Job> {
    loop {
        let made = make(random, layout, SMALL);
        let job = Job::of(layout, &made.image);
        let bad = bad(random, &made.image);
        if run(&job.with(&[&bad]).bytes()) == Err((1, number)) {
            if let Some(jobs) = in_each_place(random, &job, &bad, number) {
                return jobs;
            }
        }
    }
}

/// Every number that a job can give, in each place; the five layouts; many records; inputs that are cut
/// and that go on; images that a rebuild makes far larger.
pub fn fixed() -> Vec<Vec<u8>> {
    let mut random = Random(70);
    let mut jobs = vec![];
    for layout in LAYOUTS {
        admitted(&mut random, layout, &mut jobs);
        for (_, damage) in DAMAGES {
            let damaged = (0..100).find_map(|_| {
                let made = make(&mut random, layout, SMALL);
                damage(&mut random, &made).filter(|image| image.len() < 2_000)
            });
            jobs.extend(damaged.map(|image| Job::of(layout, &image)));
        }
        for (number, bad) in [
            (7, string_patch as fn(&mut Random, &[u8]) -> Vec<u8>),
            (7, body_patch),
            (8, string_patch),
            (9, body_patch),
            (10, body_patch),
            (15, |random, _| record(random.pick(&[b"IM", b"S\0", b"FS"]), 0, b"abc")),
        ] {
            jobs.extend(find(&mut random, layout, number, bad));
        }
    }
    sizes(&mut jobs);
    let mut inputs: Vec<Vec<u8>> = jobs.iter().map(Job::bytes).collect();
    edges(&mut random, &mut inputs);
    inputs
}

/// Accepted patches: none, one, some, many.
fn admitted(random: &mut Random, layout: Layout, jobs: &mut Vec<Job>) {
    let mut wanted =
        vec![(SMALL, 0), (SMALL, 1), (SMALL, 2), (SMALL, 6), (MIDDLE, 6), (SMALL, 300)];
    while let Some((shape, count)) = wanted.pop() {
        let made = make(random, layout, shape);
        let mut job = Job::of(layout, &made.image);
        let mut image = run(&job.bytes()).unwrap();
        let mut tries = 0;
        while job.records.len() < count && tries < 20 * (count + 1) {
            tries += 1;
            let next = any_patch(random, &image);
            if let Ok(new) = run(&Job::of(layout, &image).with(&[&next]).bytes()) {
                job.records.push(next);
                image = new;
            }
        }
        if job.records.len() < count || made.strings.len() < 2 || made.image.len() > 4_000 {
            wanted.push((shape, count));
        } else {
            jobs.push(job);
        }
    }
}

/// 11, 12 and 13: by a rebuild of shared strings, and by a body.
fn sizes(jobs: &mut Vec<Job>) {
    let grow = record(b"ST", 0, b"y");
    let body = |length: usize| record(b"FB", 0, &vec![7; length]);
    let (a, b) = (body(8), body(3));
    // Every rebuild of these images is refused, so the patches before are of the body.
    for (layout, strings, length, number, records) in [
        (0, 400, 200, 13, vec![&grow, &a]),
        (1, 400, 200, 13, vec![&a, &grow, &b]),
        (2, 400, 200, 13, vec![&a, &b, &grow]),
        (0, 2_400, 30_000, 11, vec![&grow, &a]),
        (3, 2_400, 30_000, 11, vec![&a, &grow, &b]),
        (4, 2_400, 30_000, 11, vec![&a, &b, &grow]),
        (0, 1_500, 24_000, 12, vec![&grow, &a]),
    ] {
        let job = Job::of(Layout(layout), &shared(Layout(layout), strings, length)).with(&records);
        assert_eq!(run(&job.bytes()).map_err(|(_, number)| number), Err(number));
        jobs.push(job);
    }
    let job = Job::of(Layout(0), &shared(Layout(0), 2, 5));
    let over = body(16_384);
    jobs.extend([job.with(&[&body(16_383)]), job.with(&[&over, &a])]);
    jobs.extend([job.with(&[&a, &over, &b]), job.with(&[&a, &grow, &over])]);
    let job = Job::of(Layout(3), &shared(Layout(3), 2, 5));
    jobs.push(job.with(&[&body(32_768)]));
    // The longest value whose result has room, and one byte more.
    let job = Job::of(Layout(2), &shared(Layout(2), 300, 200));
    let set = |length: usize| job.with(&[&record(b"ST", 299, &vec![b'v'; length])]);
    let longest = (0..65_536).take_while(|n| run(&set(*n).bytes()).is_ok()).last().unwrap();
    jobs.extend([set(longest), set(longest + 1)]);
}

/// Inputs that are cut, that go on, that state too much.
fn edges(random: &mut Random, inputs: &mut Vec<Vec<u8>>) {
    let made = make(random, Layout(0), SMALL);
    let none = Job::of(Layout(0), &made.image);
    let job = none.with(&[&record(b"ST", 0, "né".as_bytes()), &record(b"ST", 0, b"")]).bytes();
    let image = none.head.len();
    inputs.extend((0..8).chain([image - 1]).chain(image..job.len() + 1).map(|n| job[..n].to_vec()));
    for byte in [0, b'S', b'\n'] {
        inputs.push([&job[..], &[byte]].concat());
    }
    let with = |at: usize, byte: u8| {
        let mut input = none.head.clone();
        input[at] = byte;
        input
    };
    inputs.extend([with(0, b'i'), with(1, b'N'), with(2, 5), with(2, 255), with(6, 1)]);
    let long = |length: usize| Job::of(Layout(0), &vec![0; length]).bytes();
    inputs.extend([long(0), long(147), long(148)]);
    // 65,537 bytes are stated, whatever follows.
    inputs.push([b"IM\0\x01\0\x01\0", &made.image[..]].concat());
}
