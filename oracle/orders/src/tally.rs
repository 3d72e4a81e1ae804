//! What becomes of cases in two orders, by our exports, and how many of each class there are.

use oracle::job::packing::Mode;
use oracle::patches::judgement::{judge, UNLISTED};
use oracle::patches::orders::{met_alone, speaks, Answer, Case, Walk};
use oracle::patches::{Kind, Patch};

/// Our answer to a call, where it is the judge's; else a number that no program gives.
pub fn ours(_: usize, patch: &Patch) -> Answer {
    let theirs = judge(patch).answer;
    if exports::is_answered(patch, &theirs) {
        theirs
    } else {
        Err(UNLISTED)
    }
}

const LAW: &str = "the two orders end otherwise";
const JUDGE: &str = "an answer is not the judge's";
const AT_ONCE: &str = "one pass over all edits is otherwise";

/// What is wrong with two orders of a case, if anything is.
pub fn fault(case: &Case, walks: &[Walk; 2]) -> Option<&'static str> {
    match walks.each_ref().map(|walk| &walk.end) {
        [Err(UNLISTED), _] | [_, Err(UNLISTED)] => Some(JUDGE),
        [Ok(one), Ok(other)] if speaks(walks) && one != other => Some(LAW),
        [Ok(one), Ok(_)] if speaks(walks) => {
            let (step, room) = (walks[0].at_once(), one.len());
            let patch = Patch { room, ..case.patch(&step, &case.image) };
            (ours(0, &patch).as_ref() != Ok(one)).then_some(AT_ONCE)
        }
        _ => None,
    }
}

#[derive(Default)]
pub struct Tally {
    all: usize,
    layouts: [usize; 5],
    modes: [usize; 2],
    refused: usize,
    /// In one order alone; and with 13.
    refused_alone: usize,
    short_alone: usize,
    /// The law speaks of them: how many, by how many of their calls are in place, and by their kinds.
    spoken: usize,
    ways: [usize; 3],
    kinds: [usize; 4],
    /// A string is set by two: how many, and how many end otherwise.
    met: [usize; 2],
    /// The same, where it is one of the three ways for a pair, alone.
    alone: [[usize; 2]; 3],
}

impl Tally {
    /// Whether the law speaks of the case.
    pub fn take(&mut self, case: &Case, walks: &[Walk; 2]) -> bool {
        self.all += 1;
        self.layouts[case.layout.0 as usize] += 1;
        self.modes[usize::from(case.mode == Mode::Even)] += 1;
        let [Ok(one), Ok(other)] = walks.each_ref().map(|walk| &walk.end) else {
            let is_alone = walks.iter().any(|walk| walk.end.is_ok());
            let is_short = walks.iter().any(|walk| walk.end == Err(13));
            self.refused += 1;
            self.refused_alone += usize::from(is_alone);
            self.short_alone += usize::from(is_alone && is_short);
            return false;
        };
        if speaks(walks) {
            self.spoken += 1;
            self.ways[way(walks)] += 1;
            self.kinds[kinds(case)] += 1;
            return true;
        }
        let is_otherwise = usize::from(one != other);
        add(&mut self.met, is_otherwise);
        if let Some(way) = met_alone(walks).filter(|_| case.steps.len() == 2) {
            add(&mut self.alone[way], is_otherwise);
        }
        false
    }

    /// The classes of which there has to be something, and their numbers.
    pub fn classes(&self) -> Vec<(&'static str, usize)> {
        let mut classes = vec![
            ("one order alone refused, and not with 13", self.refused_alone - self.short_alone),
            ("13 in one order alone", self.short_alone),
            ("both orders refused", self.refused - self.refused_alone),
            ("a string set by two, and other ends", self.met[1]),
        ];
        classes.extend(self.layouts.map(|count| ("a layout", count)));
        classes.extend(self.modes.map(|count| ("a mode", count)));
        classes.extend(WAYS.into_iter().zip(self.ways));
        classes.extend(KINDS.into_iter().zip(self.kinds));
        classes
    }

    /// The three ways to set a string by both, each alone and with other ends.
    pub fn conditions(&self) -> Vec<(&'static str, usize)> {
        MEETINGS.into_iter().zip(self.alone.map(|[_, otherwise]| otherwise)).collect()
    }

    pub fn lines(&self, name: &str) -> Vec<String> {
        let Tally { all, spoken, refused, refused_alone, met: [met, otherwise], .. } = self;
        let [plain, even] = self.modes;
        let named = |names: &[&str], counts: &[usize]| {
            let each = names.iter().zip(counts).map(|(name, count)| format!("{count} {name}"));
            each.collect::<Vec<_>>().join(", ")
        };
        vec![
            format!(
                "{all} {name}: layouts 0 to 4 {:?}, {plain} plain, {even} even; {} with all calls accepted",
                self.layouts,
                all - refused
            ),
            format!(
                "{name}: the law speaks of {spoken}, and all of these end alike, as one pass does: {}; {}",
                named(&WAYS, &self.ways),
                named(&KINDS, &self.kinds)
            ),
            format!(
                "{name}: {refused} with a refused call, {refused_alone} in one order alone, {} of these with 13; \
                 {met} where a string is set by two, {otherwise} of these end otherwise",
                self.short_alone
            ),
        ]
    }

    pub fn conditions_line(&self) -> String {
        let each = MEETINGS.into_iter().zip(self.alone);
        let each = each.map(|(name, [count, otherwise])| format!("{name} {count} ({otherwise})"));
        let each: Vec<String> = each.collect();
        format!("one condition alone broken (so many end otherwise): {}", each.join(", "))
    }
}

fn add(counts: &mut [usize; 2], is_otherwise: usize) {
    counts[0] += 1;
    counts[1] += is_otherwise;
}

const MEETINGS: [&str; 3] =
    ["on the image as given", "by the second behind the first", "by the first behind the second"];
const WAYS: [&str; 3] = ["all in place", "some by a rebuild", "all by a rebuild"];

fn way(walks: &[Walk; 2]) -> usize {
    let mut taken = walks.iter().flat_map(|walk| &walk.taken);
    let any = taken.clone().any(|taken| taken.is_in_place);
    let all = taken.all(|taken| taken.is_in_place);
    2 - usize::from(any) - usize::from(all)
}

const KINDS: [&str; 4] = ["by id", "by id and by value", "by value", "with a pass"];

fn kinds(case: &Case) -> usize {
    let is = |kind: Kind| case.steps.iter().any(|step| step.kind == kind);
    match (is(Kind::Pass), is(Kind::ById), is(Kind::ByValue)) {
        (true, _, _) => 3,
        (_, true, true) => 1,
        (_, _, by_value) => 2 * usize::from(by_value),
    }
}
