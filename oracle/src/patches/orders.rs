//! String patches in two orders, document 02, No. 12: what becomes of an image on the way, when the law speaks, and the
//! fixed pairs, whose calls are recorded.

use std::cell::RefCell;

use super::judgement::judge;
use super::lists::List;
use super::odd::packed;
use super::{Kind, Patch};
use crate::image::layout::{Layout, LAYOUTS};
use crate::job::packing::{Mode, MODES};
use crate::stream::Call;

pub type Answer = Result<Vec<u8>, u32>;

/// A string patch, of whatever image.
#[derive(Clone)]
pub struct Step {
    pub kind: Kind,
    pub id: u32,
    pub old: Vec<u8>,
    pub new: Vec<u8>,
}

impl Step {
    pub fn by_id(id: u32, value: impl Into<Vec<u8>>) -> Step {
        Step { kind: Kind::ById, id, old: vec![], new: value.into() }
    }

    pub fn by_value(old: impl Into<Vec<u8>>, new: impl Into<Vec<u8>>) -> Step {
        Step { kind: Kind::ByValue, id: 0, old: old.into(), new: new.into() }
    }

    pub fn pass<V: AsRef<[u8]>>(edits: &[(u32, V)]) -> Step {
        let list = List::of(edits);
        Step { kind: Kind::Pass, id: list.ids.len() as u32, old: list.words(), new: list.text }
    }
}

/// Patches of one image, in one mode and one room.
#[derive(Clone)]
pub struct Case {
    pub layout: Layout,
    pub mode: Mode,
    pub room: usize,
    pub image: Vec<u8>,
    pub steps: Vec<Step>,
}

/// What a call set that was accepted, and which way.
pub struct Taken {
    pub step: usize,
    /// The strings and their values: by value, those that it found on the image at hand.
    pub edits: Vec<(u32, Vec<u8>)>,
    pub is_in_place: bool,
    pub length: usize,
}

/// The calls of one order up to the first that is refused, and the last image or the number.
pub struct Walk {
    pub taken: Vec<Taken>,
    pub end: Answer,
}

impl Case {
    pub fn patch<'a>(&self, step: &'a Step, image: &'a [u8]) -> Patch<'a> {
        let (mode, layout, room) = (self.mode, self.layout, self.room);
        let Step { kind, id, old, new } = step;
        Patch { kind: *kind, mode, layout, id: *id, old, new, image, room }
    }

    /// One patch after the other, in an order, as a patcher answers the calls: it is told how many came before.
    pub fn walk(&self, order: &[usize], patcher: &dyn Fn(usize, &Patch) -> Answer) -> Walk {
        let mut image = self.image.clone();
        let mut taken = vec![];
        for (place, step) in order.iter().copied().enumerate() {
            let patch = self.patch(&self.steps[step], &image);
            match patcher(place, &patch) {
                Ok(new) => {
                    let edits =
                        patch.edits().iter().map(|(id, value)| (*id, value.to_vec())).collect();
                    let (is_in_place, length) = (patch.is_in_place(), new.len());
                    taken.push(Taken { step, edits, is_in_place, length });
                    image = new;
                }
                Err(number) => return Walk { taken, end: Err(number) },
            }
        }
        Walk { taken, end: Ok(image) }
    }

    /// The two orders of a pair.
    pub fn walks(&self, patcher: &dyn Fn(usize, &Patch) -> Answer) -> [Walk; 2] {
        ORDERS.map(|order| self.walk(&order, patcher))
    }

    /// The calls of one order, up to the first that is refused.
    fn calls(&self, order: &[usize]) -> Vec<Call> {
        let calls = RefCell::new(vec![]);
        let asked = |place, patch: &Patch| {
            calls.borrow_mut().push(patch.call(vec![0x5c; patch.room]).unwrap());
            judged(place, patch)
        };
        self.walk(order, &asked);
        calls.into_inner()
    }
}

/// The judge as a patcher.
pub fn judged(_: usize, patch: &Patch) -> Answer {
    judge(patch).answer
}

/// The two orders of a pair.
pub const ORDERS: [[usize; 2]; 2] = [[0, 1], [1, 0]];

impl Walk {
    /// The pass over all edits that were made.
    pub fn at_once(&self) -> Step {
        let edits = self.taken.iter().flat_map(|taken| taken.edits.clone());
        Step::pass(&edits.collect::<Vec<_>>())
    }

    pub fn lengths(&self) -> impl Iterator<Item = usize> + '_ {
        self.taken.iter().map(|taken| taken.length)
    }
}

fn meet(one: &Taken, other: &Taken) -> bool {
    one.edits.iter().any(|(id, _)| other.edits.iter().any(|(twin, _)| twin == id))
}

/// Where a string is set by both of a pair whose four calls are accepted: on the image as given; by the second on the
/// first's result; by the first on the second's.
fn meetings([one, other]: &[Walk; 2]) -> [bool; 3] {
    let ([a, b_after], [b, a_after]) =
        ([&one.taken[0], &one.taken[1]], [&other.taken[0], &other.taken[1]]);
    [meet(a, b), meet(a, b_after), meet(b, a_after)]
}

/// The one of these three that is so, where the other two are not.
pub fn met_alone(walks: &[Walk; 2]) -> Option<usize> {
    let met = meetings(walks);
    let mut places = (0..3).filter(|i| met[*i]);
    places.next().filter(|_| places.next().is_none())
}

/// Whether the law speaks of two orders: all calls are accepted, and no string is set by two patches.
pub fn speaks(walks: &[Walk; 2]) -> bool {
    walks.iter().all(|walk| walk.end.is_ok())
        && match walks[0].taken.len() {
            2 => meetings(walks) == [false; 3],
            _ => are_apart(walks),
        }
}

/// Of more than two patches: each sets the same strings in both orders, and none that another sets.
fn are_apart([one, other]: &[Walk; 2]) -> bool {
    let twin = |taken: &Taken| other.taken.iter().find(|twin| twin.step == taken.step);
    let alike = |taken: &Taken| twin(taken).is_some_and(|twin| twin.edits == taken.edits);
    let apart = |i: usize| (0..i).all(|j| !meet(&one.taken[i], &one.taken[j]));
    one.taken.iter().all(alike) && (0..one.taken.len()).all(apart)
}

/// How a fixed pair ends.
#[derive(Clone, Copy, PartialEq, Debug)]
pub enum End {
    /// The same in both orders; so many of the four calls are in place.
    Same(usize),
    /// Not the same, since one of the three ways to set a string by both, alone, is given.
    Other(usize),
    /// The first order alone is refused, with a number.
    FirstRefused(u32),
}

/// A fixed pair.
pub struct Pair {
    pub name: &'static str,
    /// As `packed` reads them.
    strings: &'static str,
    /// Strings on the bytes of these: wide, identifier, offset, count.
    shared: &'static [(bool, bool, usize, usize)],
    steps: [Step; 2],
    pub end: End,
}

impl Pair {
    /// In room for all results, or where the first order is to be refused as much as the image takes.
    pub fn case(&self, layout: Layout, mode: Mode) -> Case {
        let mut bare = packed(layout.0, self.strings);
        bare.strings.extend(self.shared);
        let (image, steps, room) = (bare.image(), self.steps.to_vec(), usize::MAX);
        let mut case = Case { layout, mode, room, image, steps };
        case.room = match self.end {
            End::FirstRefused(_) => case.image.len(),
            _ => case.walks(&judged).iter().flat_map(Walk::lengths).max().unwrap(),
        };
        case
    }
}

/// How a pair ends, as far as a fixed one can.
pub fn end(walks: &[Walk; 2]) -> Option<End> {
    let in_place = walks.iter().flat_map(|walk| &walk.taken).filter(|taken| taken.is_in_place);
    match walks.each_ref().map(|walk| &walk.end) {
        [Err(number), Ok(_)] => Some(End::FirstRefused(*number)),
        [Ok(one), Ok(other)] if speaks(walks) => {
            (one == other).then(|| End::Same(in_place.count()))
        }
        [Ok(one), Ok(other)] => met_alone(walks).filter(|_| one != other).map(End::Other),
        _ => None,
    }
}

/// The pairs, as small as what they are named for.
pub fn pairs() -> Vec<Pair> {
    let mut pairs = by_id();
    pairs.extend(shared());
    pairs.extend(by_value());
    pairs.extend(passes());
    pairs.extend(not_alike());
    pairs
}

fn pair(name: &'static str, strings: &'static str, steps: [Step; 2], end: End) -> Pair {
    Pair { name, strings, shared: &[], steps, end }
}

fn id(id: u32, value: &str) -> Step {
    Step::by_id(id, value)
}

fn value(old: &str, new: &str) -> Step {
    Step::by_value(old, new)
}

fn pass(edits: &[(u32, &str)]) -> Step {
    Step::pass(edits)
}

fn by_id() -> Vec<Pair> {
    let [x, y, e] = ["x", "y", "é"].map(|of| of.repeat(255));
    let cases = [
        ("in place", "n3 n2 w1", (0, "abc"), (1, "xy"), 4),
        ("one in place, one by a rebuild", "n3 n2 w1", (0, "abc"), (1, "xyz"), 2),
        ("by a rebuild", "n3 n2 w1", (0, "a"), (2, "xyz"), 0),
        ("one longer, one shorter", "n3 n9 w1", (0, "abcdefghi"), (1, "x"), 0),
        ("the first and the last emptied", "n1 w1 n2", (2, ""), (0, ""), 0),
        ("identifiers in place", "N2 n1 N3 W1", (0, "ab"), (2, "cde"), 4),
        ("identifiers by a rebuild", "N2 n1 N3 W1", (3, "é"), (2, ""), 0),
        ("an identifier in place", "n2 W1 N3", (2, "abc"), (1, "ü"), 2),
        ("wide strings at odd places", "n2 w1 n1 w1 n1 w0", (0, "a"), (2, "ab"), 0),
        ("a wide one narrow, a narrow one wide", "n1 w1 n1 w1", (1, "a"), (2, "é"), 0),
        ("odd ones beside one in place", "n1 w1 n2 w1", (2, "xy"), (0, "abc"), 2),
        ("an overflow entry comes, one goes", "n255 n1 w2", (0, "a"), (1, &x), 0),
        ("two overflow entries come", "n1 w1 N1", (2, &e), (0, &y), 0),
        ("two overflow entries go", "n255 w1 W255", (2, "a"), (0, ""), 0),
    ];
    let case = |(name, strings, one, other, in_place): (_, _, (u32, &str), (u32, &str), usize)| {
        pair(name, strings, [id(one.0, one.1), id(other.0, other.1)], End::Same(in_place))
    };
    cases.map(case).into()
}

/// On storage that strings share, which the rebuild of one patch takes apart for the other.
fn shared() -> Vec<Pair> {
    let within = |name, one, other, in_place| Pair {
        shared: &[(false, false, 1, 2)],
        ..pair(name, "n4 n2 w1", [one, other], End::Same(in_place))
    };
    vec![
        within("in place behind the other alone", id(0, "abcd"), id(1, "x"), 1),
        within("each in place behind the other", id(0, "abcd"), id(3, "xy"), 2),
        within("one apart from the shared ones", id(3, "x"), id(1, "yz"), 2),
    ]
}

fn by_value() -> Vec<Pair> {
    let named = |name, strings, one, other, in_place| {
        pair(name, strings, [one, other], End::Same(in_place))
    };
    vec![
        named("by value, in place", "n3 N2 w1", value("BBB", "abc"), value("CC", "xy"), 4),
        named("by value, by a rebuild", "n1 W1 n1", value("B", "é"), value("䅃", "xyz"), 0),
        named("by value and by id", "n1 N2 w1", value("CC", "xy"), id(0, "abc"), 2),
        named("the lowest of equal ones", "n0 n1 n0", value("", "x"), id(2, "y"), 0),
        named("its old value again, behind it", "n1 n1 w1", id(1, "B"), value("B", "x"), 4),
        named("a pass and by value", "n1 N2 w1", pass(&[(2, "a"), (0, "z")]), value("CC", "é"), 0),
    ]
}

fn passes() -> Vec<Pair> {
    let named = |name, strings, one, other, in_place| {
        pair(name, strings, [one, other], End::Same(in_place))
    };
    let three = pass(&[(2, "abc"), (0, "xy")]);
    let wide = [pass(&[(3, "a"), (0, "é")]), pass(&[(1, "bc"), (2, "ö")])];
    vec![
        named("passes in place", "n2 N1 N3 n0", three.clone(), pass(&[(1, "z"), (3, "")]), 4),
        named("passes, one in place", "n2 N1 N3 w1", three, pass(&[(3, "é"), (1, "z")]), 2),
        pair("passes by a rebuild", "n1 w1 N1 W1", wide, End::Same(0)),
        named("a pass of none", "n1 w1 N1", pass(&[]), id(2, "ab"), 2),
    ]
}

/// Those of which the law does not speak.
fn not_alike() -> Vec<Pair> {
    use End::{FirstRefused, Other};
    let longer = [id(0, "abcdefghijk"), id(1, "x")];
    vec![
        pair("by one old value", "n0 n0 n1", [value("", "x"), value("", "y")], Other(0)),
        pair("the second finds the first's", "n1 n2", [id(0, "CC"), value("CC", "z")], Other(1)),
        pair("the first finds the second's", "n1 n2", [value("CC", "z"), id(0, "CC")], Other(2)),
        pair("13 halfway", "n3 n9 N1", longer, FirstRefused(13)),
    ]
}

/// The calls of each pair, one layout and one mode for each: those of one order, then those of the other.
pub fn fixed() -> Vec<Call> {
    let mut calls = vec![];
    for (i, pair) in pairs().iter().enumerate() {
        let case = pair.case(LAYOUTS[i % LAYOUTS.len()], MODES[i % MODES.len()]);
        let walks = case.walks(&judged);
        assert_eq!(end(&walks), Some(pair.end), "{}", pair.name);
        for order in ORDERS {
            calls.extend(case.calls(&order));
        }
    }
    calls
}
