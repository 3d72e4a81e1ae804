//! A second reading of document 02, No. 1: an image becomes what a file says.

use std::cell::RefCell;
use std::collections::BTreeMap;

use super::file::{is_twice, parsed, Pair, Parsed};
use super::slip::Slip;
use super::{Call, Lent, Made, Patcher, Space};
use crate::image::layout::Layout;
use crate::image::reading::{Reading, Stored};
use crate::job::packing::{Mode, Packing};
use crate::job::pass::{self, List};
use crate::job::patch::finish;
use crate::patches::{even, texts, Kind, Patch};

/// What is judged, in the order of the refusals.
#[derive(Clone, Copy, PartialEq)]
enum Stage {
    Bytes,
    Image,
    Space,
    File,
    Targets,
    Steps,
}

use Stage::{Bytes, File, Image, Steps, Targets};

pub(super) fn run(call: &Call, file: &[u8], patcher: Patcher, slip: Option<Slip>) -> Made {
    let reader = Reader { call, file: parsed(file, slip), patcher, slip };
    let mut made = Ok(vec![]);
    for stage in order(slip) {
        made = reader.judged(stage);
        if let Err(number) = made {
            let is_used = !matches!(stage, Stage::Bytes | Stage::Image | Stage::Space);
            return Made { end: Err(number), is_used };
        }
    }
    Made { end: made, is_used: true }
}

/// The length of the image after each single patch, with any room and enough that is lent. None where the call is refused
/// all the same.
pub fn lengths(call: &Call, file: &[u8]) -> Option<Vec<usize>> {
    let lengths = RefCell::new(vec![]);
    let patcher = |patch: &Patch| {
        let image = even::read(&Patch { room: usize::MAX, ..*patch }, None)?;
        lengths.borrow_mut().push(image.len());
        Ok(image)
    };
    // What is no image has no string count to lend for.
    if call.layout > 4 || call.reading().refusal() != 0 {
        return None;
    }
    let roomy = call.clone().lending(call.image.len());
    let end = run(&roomy, file, &patcher, None).end;
    end.is_ok().then(|| lengths.take())
}

fn order(slip: Option<Slip>) -> [Stage; 6] {
    match slip {
        Some(Slip::ModeAfterImage) => [Image, Bytes, Stage::Space, File, Targets, Steps],
        Some(Slip::SpaceBeforeImage) => [Bytes, Stage::Space, Image, File, Targets, Steps],
        Some(Slip::SpaceAfterFile) => [Bytes, Image, File, Stage::Space, Targets, Steps],
        Some(Slip::SpaceAfterTargets) => [Bytes, Image, File, Targets, Stage::Space, Steps],
        Some(Slip::FileBeforeImage) => [Bytes, File, Image, Stage::Space, Targets, Steps],
        Some(Slip::TargetsBeforeFile) => [Bytes, Image, Stage::Space, Targets, File, Steps],
        _ => [Bytes, Image, Stage::Space, File, Targets, Steps],
    }
}

struct Reader<'a> {
    call: &'a Call,
    file: Parsed,
    patcher: Patcher<'a>,
    slip: Option<Slip>,
}

impl Reader<'_> {
    fn slips(&self, slip: Slip) -> bool {
        self.slip == Some(slip)
    }

    /// The last stage answers the image, the others with nothing.
    fn judged(&self, stage: Stage) -> Result<Vec<u8>, u32> {
        let refused = |is: bool, number: u32| if is { Err(number) } else { Ok(vec![]) };
        match stage {
            Stage::Bytes => {
                let is_mode = self.call.mode <= 1 || self.slips(Slip::ModeNotJudged);
                refused(self.call.layout > 4 || !is_mode, 15)
            }
            Stage::Image if self.call.layout > 4 => Ok(vec![]),
            Stage::Image => {
                let number = self.call.reading().refusal();
                refused(number != 0, number)
            }
            Stage::Space => refused(self.is_short(), 13),
            Stage::File => {
                let is_late = self.slips(Slip::TwiceAfterTargets);
                refused(self.file.is_outside || self.is_twice() && !is_late, 16)
            }
            Stage::Targets if self.slips(Slip::StepsBeforeTargets) => {
                self.made().and_then(|_| refused(self.has_unknown(), 14))
            }
            Stage::Targets => refused(self.has_unknown(), 14),
            Stage::Steps if self.is_twice() => Err(16),
            Stage::Steps => self.made(),
        }
    }

    /// "Shorter than asked for: 13, right after 1 to 6".
    fn is_short(&self) -> bool {
        let Space { mut text, mut ends, mut work } = self.call.space();
        match self.slip {
            Some(Slip::TextByOne) => text = text.saturating_sub(1),
            Some(Slip::EndsByOne) => ends -= 1,
            Some(Slip::WorkByOne) => work -= 1,
            Some(Slip::WorkWithoutStrings) => work = 3 * ends,
            _ => {}
        }
        let Lent { text: bytes, ends: places, work: words, .. } = &self.call.lent;
        bytes.len() < text || places.len() < ends || words.len() < work
    }

    fn is_twice(&self) -> bool {
        is_twice(&self.file.pairs, self.slip)
    }

    // ---- "The pair with the empty msgid is the header and isn't applied; an empty msgstr means not translated".

    fn applied(&self) -> impl Iterator<Item = &Pair> {
        self.file.pairs.iter().filter(|pair| self.is_applied(pair))
    }

    fn is_applied(&self, pair: &Pair) -> bool {
        let is_header = match self.slip {
            Some(Slip::HeaderApplied) => false,
            Some(Slip::HeaderByFirstPiece) => pair.id_pieces[0].is_empty(),
            _ => pair.id.is_empty(),
        };
        let is_untranslated = match self.slip {
            Some(Slip::UntranslatedApplied) => false,
            Some(Slip::UntranslatedByFirstPiece) => pair.text_pieces[0].is_empty(),
            Some(Slip::SameLeftOut) => pair.text.is_empty() || pair.text == pair.id,
            _ => pair.text.is_empty(),
        };
        !is_header && !is_untranslated
    }

    // ---- "looked up in the image as given, identifiers left out".

    /// The strings of an image that have a msgid.
    fn targets(&self, reading: &Reading, id: &str) -> Vec<usize> {
        let identifiers = texts::identifiers(reading);
        let strings = reading.strings();
        let wanted: Vec<u16> = id.encode_utf16().collect();
        let is_alike = |string: &Stored| {
            let units = texts::units(reading, string);
            match self.slip {
                Some(Slip::DecodedTextCompared) => String::from_utf16_lossy(&units) == id,
                Some(Slip::WideLeftOut) if id.is_ascii() => !string.wide && units == wanted,
                Some(Slip::NarrowLeftOut) => string.wide && units == wanted,
                Some(Slip::EmptyStringsFound) => units.is_empty() || units == wanted,
                _ => units == wanted,
            }
        };
        let is_plain = |at: &usize| !identifiers[*at] || self.slips(Slip::IdentifiersLookedAt);
        let mut found: Vec<usize> =
            (0..strings.len()).filter(|at| is_plain(at) && is_alike(&strings[*at])).collect();
        match self.slip {
            Some(Slip::FirstStringAlone) => found.truncate(1),
            Some(Slip::SecondStringLeftOut) if found.len() > 1 => drop(found.remove(1)),
            Some(Slip::LastStringAlone) => found = found.split_off(found.len().max(1) - 1),
            Some(Slip::IdentifiersPatchedToo) if !found.is_empty() => {
                found = (0..strings.len()).filter(|at| is_alike(&strings[*at])).collect();
            }
            _ => {}
        }
        found
    }

    /// "14 for a msgid to be applied that no plain string has".
    fn has_unknown(&self) -> bool {
        let reading = self.call.reading();
        let is_identifier = |id: &str| texts::lowest(&reading, id).is_some();
        let is_unknown = |pair: &&Pair| match self.slip {
            Some(Slip::UnknownPassedOver) => false,
            Some(Slip::IdentifierIsFound) => !is_identifier(&pair.id),
            _ => self.targets(&reading, &pair.id).is_empty(),
        };
        let is_judged = |pair: &&Pair| {
            let is_known_kind = self.slips(Slip::UnknownUntranslatedRefused) && !pair.id.is_empty();
            self.is_applied(pair) || is_known_kind
        };
        self.file.pairs.iter().filter(is_judged).any(|pair| is_unknown(&pair))
    }

    /// Each string that gets a msgstr, and that.
    fn edits(&self) -> BTreeMap<usize, &str> {
        let reading = self.call.reading();
        let of = |pair: &Pair| self.targets(&reading, &pair.id);
        self.applied()
            .flat_map(|pair| of(pair).into_iter().map(|id| (id, &pair.text[..])))
            .collect()
    }

    // ---- "the result is that of the single string patches in id order, or the image finalized when there are none".

    fn made(&self) -> Result<Vec<u8>, u32> {
        let edits = self.edits();
        if edits.is_empty() {
            return self.finished();
        }
        match self.slip {
            Some(Slip::LookedUpInTurn) => self.made_in_turn(),
            Some(Slip::AlwaysRebuilt) => self.rebuilt_in_steps(&edits),
            Some(Slip::LeastNumberOfAll) => self.made_by_least_number(&edits),
            Some(Slip::FileOrder) => {
                let reading = self.call.reading();
                let in_order = self.applied().flat_map(|pair| {
                    let ids = self.targets(&reading, &pair.id).into_iter();
                    ids.map(|id| (id, &pair.text[..]))
                });
                self.stepped(in_order.collect())
            }
            _ => self.stepped(edits.into_iter().collect()),
        }
    }

    fn finished(&self) -> Result<Vec<u8>, u32> {
        let image = self.call.image.clone();
        let is_short = self.call.lent.out.len() < image.len();
        match self.slip {
            Some(Slip::NoneUnfinished) if !is_short => Ok(image),
            Some(Slip::NoneRebuilt) => self.rebuilt(&image, &BTreeMap::new()),
            _ if is_short && !self.slips(Slip::NoneWithoutRoom) => Err(13),
            _ => Ok(finish(image)),
        }
    }

    fn patch<'b>(&self, image: &'b [u8], id: usize, value: &'b str) -> Patch<'b> {
        let mode = match self.slip {
            Some(Slip::EvenAsPlain) => Mode::Plain,
            Some(Slip::PlainAsEven) => Mode::Even,
            _ => self.call.mode(),
        };
        let (layout, room) = (Layout(self.call.layout), self.call.lent.out.len());
        let (kind, id, new) = (Kind::ById, id as u32, value.as_bytes());
        Patch { kind, mode, layout, id, old: &[], new, image, room }
    }

    fn stepped(&self, edits: Vec<(usize, &str)>) -> Result<Vec<u8>, u32> {
        let mut image = self.call.image.clone();
        for (place, (id, value)) in edits.iter().copied().enumerate() {
            let mut patch = self.patch(&image, id, value);
            if self.slips(Slip::LastStepUnjudged) && place + 1 == edits.len() {
                patch.room = usize::MAX;
            }
            match (self.patcher)(&patch) {
                Ok(next) => image = next,
                Err(number) => return self.refused(number, image, &edits),
            }
        }
        Ok(image)
    }

    /// The first single patch that meets a limit gives its number.
    fn refused(
        &self,
        number: u32,
        so_far: Vec<u8>,
        edits: &[(usize, &str)],
    ) -> Result<Vec<u8>, u32> {
        match (self.slip, number) {
            (Some(Slip::HalfApplied), _) => Ok(finish(so_far)),
            (Some(Slip::PassFor11), 11)
            | (Some(Slip::PassFor12), 12)
            | (Some(Slip::PassFor13), 13) => {
                self.passed(&edits.iter().copied().collect(), self.call.lent.out.len())
            }
            _ => Err(number),
        }
    }

    // ---- Mistakes on purpose.

    /// The pass of No. 4, with the numbers of its end image alone.
    fn passed(&self, edits: &BTreeMap<usize, &str>, room: usize) -> Result<Vec<u8>, u32> {
        let text: String = edits.values().copied().collect();
        let ends = edits.values().scan(0, |end, value| {
            *end += value.len() as u32;
            Some(*end)
        });
        let ids = edits.keys().map(|id| *id as u32).collect();
        let list = List { ids, text: text.as_bytes(), ends: ends.collect() };
        let packing = Packing { mode: self.call.mode(), slip: None };
        let layout = Layout(self.call.layout);
        pass::pass(layout, &self.call.image, room as u64, &list, packing, None)
    }

    /// Each pair in the order of the file, looked up in the image at hand.
    fn made_in_turn(&self) -> Result<Vec<u8>, u32> {
        let mut image = self.call.image.clone();
        for pair in self.applied() {
            let at_hand = image.clone();
            let reading = Reading { image: &at_hand, ..self.call.reading() };
            let ids = self.targets(&reading, &pair.id);
            if ids.is_empty() {
                return Err(14);
            }
            for id in ids {
                image = (self.patcher)(&self.patch(&image, id, &pair.text))?;
            }
        }
        Ok(image)
    }

    /// As if all numbers were judged of all steps, the least first.
    fn made_by_least_number(&self, edits: &BTreeMap<usize, &str>) -> Result<Vec<u8>, u32> {
        let mut image = self.call.image.clone();
        let mut least = None;
        for (id, value) in edits {
            let patch = self.patch(&image, *id, value);
            if let Err(number) = (self.patcher)(&patch) {
                least = Some(least.map_or(number, |least: u32| least.min(number)));
            }
            match (self.patcher)(&Patch { room: usize::MAX, ..patch }) {
                Ok(next) => image = next,
                Err(_) => break,
            }
        }
        least.map_or(Ok(image), Err)
    }

    /// Never in place.
    fn rebuilt_in_steps(&self, edits: &BTreeMap<usize, &str>) -> Result<Vec<u8>, u32> {
        let mut image = self.call.image.clone();
        for (id, value) in edits {
            let patched = (self.patcher)(&self.patch(&image, *id, value))?;
            image = self.rebuilt(&patched, &BTreeMap::new())?;
        }
        Ok(image)
    }

    /// All strings packed anew, whatever becomes of them.
    fn rebuilt(&self, image: &[u8], edits: &BTreeMap<usize, &str>) -> Result<Vec<u8>, u32> {
        let ids = edits.keys().map(|id| *id as u32).collect();
        let list = List { ids, text: &[], ends: vec![] };
        let packing = Packing { mode: self.call.mode(), slip: None };
        let (layout, room) = (Layout(self.call.layout), self.call.lent.out.len() as u64);
        pass::pass(layout, image, room, &list, packing, Some(pass::Slip::NoneRebuilt))
    }
}
