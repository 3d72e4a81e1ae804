//! What random calls are, and how many of each class there are.

use std::collections::BTreeMap;

use oracle::po::Call;

#[derive(Default)]
pub struct Tally {
    all: usize,
    classes: BTreeMap<&'static str, usize>,
}

/// Each class that has to be among the calls.
const CLASSES: [&str; 25] = [
    "modern",
    "legacy",
    "plain",
    "even",
    "read",
    "of none",
    "of one string",
    "of some strings",
    "longer on the way",
    "a written file",
    "an empty file written",
    "15",
    "1",
    "2",
    "3",
    "4",
    "5",
    "6",
    "13 for the space",
    "13 for the last step",
    "13 for a step before",
    "13 for the finalized image",
    "13 for a written file",
    "14",
    "16",
];

impl Tally {
    fn add(&mut self, class: &'static str) {
        *self.classes.entry(class).or_default() += 1;
    }

    pub fn take(&mut self, call: &Call) {
        self.all += 1;
        self.add(if call.layout == 0 { "modern" } else { "legacy" });
        self.add(if call.mode == 0 { "plain" } else { "even" });
        let answer = call.answer(None);
        let lengths = call.step_lengths().unwrap_or_default();
        let is_written = call.file.is_none();
        match answer.end {
            Ok(0) => self.add("an empty file written"),
            Ok(_) if is_written => self.add("a written file"),
            Ok(length) => {
                self.add("read");
                self.add(match lengths.len() {
                    0 => "of none",
                    1 => "of one string",
                    _ => "of some strings",
                });
                if lengths.iter().any(|on_the_way| *on_the_way > length) {
                    self.add("longer on the way");
                }
            }
            Err(13) if call.is_short() => self.add("13 for the space"),
            Err(13) if is_written => self.add("13 for a written file"),
            Err(13) if lengths.is_empty() => self.add("13 for the finalized image"),
            Err(13) => {
                let is_last = lengths.last().is_some_and(|last| *last > call.lent.out.len());
                self.add(if is_last { "13 for the last step" } else { "13 for a step before" });
            }
            Err(number) => {
                let name = CLASSES.iter().find(|name| **name == number.to_string());
                self.add(name.copied().unwrap_or("another number"));
            }
        }
    }

    pub fn lines(&self) -> Vec<String> {
        let each = self.classes.iter().map(|(name, count)| format!("{name} {count}"));
        vec![format!("{} random calls: {}", self.all, each.collect::<Vec<_>>().join(", "))]
    }

    /// The classes of which there is none.
    pub fn empty(&self) -> Vec<&'static str> {
        CLASSES.into_iter().filter(|name| !self.classes.contains_key(name)).collect()
    }
}
