//! Where a single patch in the middle meets 11 or 12, though the end would not, by one on either side; and which of the
//! numbers comes first. The images are short, since their strings share storage, and the first patch makes them long.

use std::process::ExitCode;

use oracle::patches::odd::{PAST_FIELD, SHARED};
use oracle::patches::small::{Bare, Places};
use oracle::po::slip::Slip;
use oracle::po::{Call, Lent};

/// 01, refusals 1 and 11.
const LIMIT: usize = 67_108_864;

/// What is found here alone.
pub const SLIPS: [Slip; 3] = [Slip::PassFor11, Slip::PassFor12, Slip::LeastNumberOfAll];

/// An image and its file. p gets two or three letters, q so many, and a long string is emptied but for one: the second step
/// is the longest.
#[derive(Clone, Copy)]
struct Shape {
    mode: u8,
    /// Identifiers on the same bytes.
    shared: usize,
    /// The letters that q gets.
    letters: usize,
    /// They are wide, and stand behind three bytes.
    is_wide: bool,
    /// The bytes of the long string, a part of those that are shared.
    long: usize,
    /// The bytes behind the tail's start, and whether the empty body of a function is behind them.
    tail: usize,
    has_body: bool,
}

impl Shape {
    fn image(&self) -> Vec<u8> {
        let mut strings = vec![(false, false, SHARED, 1), (false, false, SHARED + 1, 1)];
        strings.extend(vec![(false, true, 0, SHARED); self.shared]);
        strings.push((false, false, 0, self.long));
        let storage = [vec![b'a'; SHARED], b"pq".to_vec()].concat();
        let body = Places { body: self.tail, ..Places::default() };
        let functions = self.has_body.then_some(body).into_iter().collect();
        Bare { strings, storage, functions, tail: self.tail, ..Bare::default() }.image()
    }

    /// Not in id order.
    fn file(&self) -> Vec<u8> {
        let pair = |id: &str, text: &str| format!("msgid \"{id}\"\nmsgstr \"{text}\"\n\n");
        let (first, letter) = if self.is_wide { ("ppp", "é") } else { ("pp", "q") };
        let second = letter.repeat(self.letters);
        let pairs = [pair(&"a".repeat(self.long), "z"), pair("q", &second), pair("p", first)];
        pairs.concat().into_bytes()
    }

    fn call(&self) -> Call {
        let (file, image) = (Some(self.file()), self.image());
        Call { file, layout: 0, mode: self.mode, image, lent: Lent::default() }.lending(0)
    }

    /// The length after the second step.
    fn second(&self) -> usize {
        self.call().lengths().unwrap()[1]
    }

    /// With as many strings and letters that the tail starts at a place after the second step, in plain mode.
    fn filled(self, tail_at: usize) -> Shape {
        // Each shared string takes 8 bytes of a pair besides; its other entries are in the image already.
        let shared = (tail_at - 60_000) / (SHARED + 8) - 1;
        let few = Shape { mode: 0, shared, letters: 300, ..self };
        let missing = tail_at - (few.second() - self.tail - 20);
        let letters = few.letters + if self.is_wide { missing / 2 } else { missing };
        Shape { letters, mode: self.mode, ..few }
    }
}

const NARROW: Shape = Shape {
    mode: 0,
    shared: 1,
    letters: 300,
    is_wide: false,
    long: SHARED - 1,
    tail: 0,
    has_body: false,
};

/// Where the gap before q makes the second step longer: no padding takes it up. How many strings share does not matter.
fn gapped() -> Shape {
    let wide = |less: usize| Shape { is_wide: true, long: SHARED - less, ..NARROW };
    let is_gapped = |shape: &Shape| Shape { mode: 1, ..*shape }.second() > shape.second();
    (1..5).map(wide).find(is_gapped).unwrap()
}

fn at_limit(shape: Shape, more: usize) -> Call {
    Shape { tail: more, ..shape }.filled(LIMIT - 20).call()
}

fn at_field(shape: Shape, more: usize) -> Call {
    Shape { tail: 3 + more, has_body: true, ..shape }.filled(PAST_FIELD - 4).call()
}

fn ends(call: Call, room: usize, end: Result<(), u32>) -> bool {
    let call = call.lending(room);
    let theirs = call.answer(None);
    theirs.end.map(|_| ()) == end && exports::po::answered(&call) == theirs
}

/// The numbers that refuse it in plain and in even mode.
fn by_gap(at: fn(Shape, usize) -> Call, ends_with: [Result<(), u32>; 2]) -> bool {
    let call = at(gapped(), 0);
    let mut modes = [0, 1].into_iter().zip(ends_with);
    modes.all(|(mode, end)| ends(Call { mode, ..call.clone() }, LIMIT, end))
}

/// As much room as the first step takes, and so much less.
fn in_first_room(call: Call, less: usize, number: u32) -> bool {
    // The second step is refused, so the first is measured alone.
    let file = Some(b"msgid \"p\"\nmsgstr \"pp\"\n".to_vec());
    let first = Call { file, ..call.clone() }.lending(0).lengths().unwrap()[0];
    ends(call, first - less, Err(number))
}

type Check = (&'static str, fn() -> bool);

const CHECKS: [Check; 10] = [
    ("a step in the middle is as long as the limit", || ends(at_limit(NARROW, 0), LIMIT, Ok(()))),
    ("a step in the middle is a byte longer: 11", || ends(at_limit(NARROW, 1), LIMIT, Err(11))),
    ("11 comes before 13 of the same step", || in_first_room(at_limit(NARROW, 1), 0, 11)),
    ("13 of the first step comes before 11 of the second", || {
        in_first_room(at_limit(NARROW, 1), 1, 13)
    }),
    ("the gap of a step in the middle: 11", || by_gap(at_limit, [Ok(()), Err(11)])),
    ("a step in the middle has a body at 33,554,431", || ends(at_field(NARROW, 0), LIMIT, Ok(()))),
    ("a step in the middle has a body past it: 12", || ends(at_field(NARROW, 1), LIMIT, Err(12))),
    ("13 of the first step comes before 12 of the second", || {
        in_first_room(at_field(NARROW, 1), 1, 13)
    }),
    ("the gap of a step in the middle: 12", || by_gap(at_field, [Ok(()), Err(12)])),
    ("14 comes before 11", || {
        let mut call = at_limit(NARROW, 1);
        call.file.as_mut().unwrap().extend(b"msgid \"x\"\nmsgstr \"y\"\n");
        ends(call, LIMIT, Err(14))
    }),
];

pub fn run() -> (String, bool) {
    match CHECKS.iter().find(|(_, holds)| !holds()) {
        Some((name, _)) => (format!("{name}: differs"), false),
        None => {
            (format!("{} checks at limits, of up to 67 MB: as they should be", CHECKS.len()), true)
        }
    }
}

/// Whether a call at a limit shows the mistake.
pub fn finds(slip: Slip) -> bool {
    let call = match slip {
        Slip::PassFor11 => at_limit(NARROW, 1).lending(LIMIT),
        Slip::PassFor12 => at_field(NARROW, 1).lending(LIMIT),
        // There is room for no step.
        _ => at_field(NARROW, 1).lending(0),
    };
    call.answer(Some(slip)) != call.answer(None)
}

/// "The length is counted in 64 bits": the strings are the ends of one, all different, and make a file of 2^32 bytes and some
/// more, which a shorter sum would take for some.
pub fn long() -> ExitCode {
    let units = 2_000_000usize;
    let mut strings = vec![];
    let mut length = 0u64;
    while length < 1 << 32 {
        let start = strings.len();
        strings.push((true, false, 2 * start, units - start));
        length += 3 * (units - start) as u64 + "msgid \"\"\nmsgstr \"\"\n\n".len() as u64;
    }
    let unit = "日".encode_utf16().flat_map(u16::to_le_bytes).collect::<Vec<u8>>();
    let image = Bare { strings, storage: unit.repeat(units), ..Bare::default() }.image();
    let call = Call { file: None, layout: 0, mode: 0, image, lent: Lent::default() };
    let call = call.lending((length - (1 << 32)) as usize + 64);
    let ours = exports::po::answered(&call);
    let is_cleared = ours.lent.work.iter().all(|word| *word == 0);
    let is_right = ours.end == Err(13) && is_cleared && ours.lent.out == call.lent.out;
    println!("oracle: po: a file of {length} bytes: {}", if is_right { "13" } else { "differs" });
    ExitCode::from(u8::from(!is_right))
}
