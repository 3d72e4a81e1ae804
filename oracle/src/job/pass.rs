//! A second reading of document 02, No. 4: a list of string patches in one pass. The edits are gathered in a map by id,
//! where our code looks through the list, and the image is taken apart and written anew.

use std::collections::BTreeMap;

use super::packing::Packing;
use super::patch::{finish, patch, Parts, Patch};
use crate::image::layout::Layout;
use crate::image::reading::Reading;

/// Mistakes that a program could make with a list.
#[derive(Clone, Copy, PartialEq, Debug)]
pub enum Slip {
    // What is a list.
    CountsMayDiffer,
    EndsMayFall,
    EndsMayPassText,
    TextHasToEnd,
    ListAfterImage,
    // The numbers of the edits, and their order.
    FirstIdJudged,
    LastIdJudged,
    TwiceBeforeId,
    TwiceAfterValue,
    TwiceTaken,
    TwiceTakenWhereAlike,
    TwiceAmongNeighbours,
    FirstValueJudged,
    LastValueJudged,
    WholeTextJudged,
    ValueBeforeId,
    // Which edits are made.
    LastDropped,
    FirstDropped,
    RisingIdsOnly,
    ValuesInListOrder,
    EmptyValuesDropped,
    // Which way.
    FirstInPlaceAll,
    LastInPlaceAll,
    OverlapOfEditedIgnored,
    OverlapIgnored,
    NeverInPlace,
    NoneRebuilt,
    NoneUnfinished,
    // The hash slots.
    FirstHashOnly,
    LastHashOnly,
    HashesInRebuildOnly,
    FirstHashInAll,
    /// A refusal by its number, where one of the single steps meets it.
    StepsJudged(u32),
}

pub fn slips() -> Vec<Slip> {
    use Slip::*;
    let mut slips = vec![
        CountsMayDiffer,
        EndsMayFall,
        EndsMayPassText,
        TextHasToEnd,
        ListAfterImage,
        FirstIdJudged,
        LastIdJudged,
        TwiceBeforeId,
        TwiceAfterValue,
        TwiceTaken,
        TwiceTakenWhereAlike,
        TwiceAmongNeighbours,
        FirstValueJudged,
        LastValueJudged,
        WholeTextJudged,
        ValueBeforeId,
        LastDropped,
        FirstDropped,
        RisingIdsOnly,
        ValuesInListOrder,
        EmptyValuesDropped,
        FirstInPlaceAll,
        LastInPlaceAll,
        OverlapOfEditedIgnored,
        OverlapIgnored,
        NeverInPlace,
        NoneRebuilt,
        NoneUnfinished,
        FirstHashOnly,
        LastHashOnly,
        HashesInRebuildOnly,
        FirstHashInAll,
    ];
    slips.extend([11, 12, 13].map(StepsJudged));
    slips
}

/// A list as it is lent: ids, the values as one text, and where each of them ends.
pub struct List<'a> {
    pub ids: Vec<u32>,
    pub text: &'a [u8],
    pub ends: Vec<u32>,
}

/// One edit: an id and a value.
pub type Edit<'a> = (u32, &'a [u8]);

impl<'a> List<'a> {
    /// The edits, or none where the three are no list.
    pub fn edits(&self, slip: Option<Slip>) -> Option<Vec<Edit<'a>>> {
        let slips = |one| slip == Some(one);
        if self.ids.len() != self.ends.len() && !slips(Slip::CountsMayDiffer) {
            return None;
        }
        let last = self.ends.last().map_or(0, |end| *end as usize);
        if slips(Slip::TextHasToEnd) && last != self.text.len() {
            return None;
        }
        let mut start = 0;
        let mut edits = vec![];
        for (id, end) in self.ids.iter().zip(&self.ends) {
            let mut end = *end as usize;
            if slips(Slip::EndsMayFall) {
                end = end.max(start);
            }
            if slips(Slip::EndsMayPassText) {
                end = end.min(self.text.len());
            }
            edits.push((*id, self.text.get(start..end)?));
            start = end;
        }
        Some(edits)
    }
}

/// The new image, or the number of the refusal.
pub fn pass(
    layout: Layout,
    image: &[u8],
    room: u64,
    list: &List,
    packing: Packing,
    slip: Option<Slip>,
) -> Result<Vec<u8>, u32> {
    let edits = list.edits(slip);
    if edits.is_none() && slip != Some(Slip::ListAfterImage) {
        return Err(15);
    }
    match (Reading { layout, image, slip: None }).refusal() {
        0 => {}
        number => return Err(number),
    }
    let pass = Pass {
        layout,
        parts: Parts::of(layout, image),
        edits: edits.ok_or(15u32)?,
        packing,
        room,
        slip,
    };
    pass.run()
}

struct Pass<'a> {
    layout: Layout,
    parts: Parts<'a>,
    edits: Vec<Edit<'a>>,
    packing: Packing,
    room: u64,
    slip: Option<Slip>,
}

impl<'a> Pass<'a> {
    fn slips(&self, slip: Slip) -> bool {
        self.slip == Some(slip)
    }

    fn run(&self) -> Result<Vec<u8>, u32> {
        let values = self.values()?;
        self.steps()?;
        if self.edits.is_empty() && !self.slips(Slip::NoneRebuilt) {
            let image = self.copied()?;
            return Ok(if self.slips(Slip::NoneUnfinished) { image } else { finish(image) });
        }
        let in_place = self.is_in_place(&values);
        let mut new = if in_place {
            self.written_over(&values)?
        } else {
            self.parts.rebuilt(&values, self.packing, self.room)?
        };
        self.put_hashes(&mut new, &values, in_place);
        Ok(finish(new))
    }

    // ---- "17, an id given twice, after 7 and before 8".

    /// The values by their ids, where no number is due.
    fn values(&self) -> Result<BTreeMap<usize, &'a str>, u32> {
        let mut tests = [(7, self.is_unknown()), (17, self.is_twice()), (8, self.is_no_text())];
        match self.slip {
            Some(Slip::TwiceBeforeId) => tests.swap(0, 1),
            Some(Slip::TwiceAfterValue) => tests.swap(1, 2),
            Some(Slip::ValueBeforeId) => tests.rotate_right(1),
            _ => {}
        }
        if let Some((number, _)) = tests.iter().find(|(_, is_due)| *is_due) {
            return Err(*number);
        }
        let text = |bytes| std::str::from_utf8(bytes).unwrap_or("");
        let all = self.edits.iter().map(|(id, bytes)| (*id as usize, text(bytes)));
        // Of an unknown id, where one is taken for known, there is nothing to write.
        let known = all.filter(|(id, _)| *id < self.parts.texts.len());
        Ok(self.made(known.collect()))
    }

    fn is_unknown(&self) -> bool {
        self.some(Slip::FirstIdJudged, Slip::LastIdJudged, |(id, _)| {
            *id as usize >= self.parts.texts.len()
        })
    }

    fn is_twice(&self) -> bool {
        let taken = |i: usize, j: usize| match self.slip {
            Some(Slip::TwiceTaken) => true,
            Some(Slip::TwiceTakenWhereAlike) => self.edits[i].1 == self.edits[j].1,
            Some(Slip::TwiceAmongNeighbours) => i + 1 != j,
            _ => false,
        };
        let alike = |i: usize, j: usize| self.edits[i].0 == self.edits[j].0 && !taken(i, j);
        (0..self.edits.len()).any(|j| (0..j).any(|i| alike(i, j)))
    }

    fn is_no_text(&self) -> bool {
        if self.slips(Slip::WholeTextJudged) {
            let whole: Vec<u8> = self.edits.iter().flat_map(|(_, value)| value.to_vec()).collect();
            return std::str::from_utf8(&whole).is_err();
        }
        self.some(Slip::FirstValueJudged, Slip::LastValueJudged, |(_, value)| {
            std::str::from_utf8(value).is_err()
        })
    }

    /// Whether some edit is so, with one slip only the first is looked at and with the other only the last.
    fn some(&self, first: Slip, last: Slip, is: impl Fn(&Edit) -> bool) -> bool {
        match self.slip {
            Some(slip) if slip == first => self.edits.first().is_some_and(is),
            Some(slip) if slip == last => self.edits.last().is_some_and(is),
            _ => self.edits.iter().any(is),
        }
    }

    /// The edits that are made: all of them.
    fn made(&self, mut edits: Vec<(usize, &'a str)>) -> BTreeMap<usize, &'a str> {
        match self.slip {
            Some(Slip::LastDropped) => drop(edits.pop()),
            Some(Slip::FirstDropped) => edits = edits.split_off(edits.len().min(1)),
            Some(Slip::EmptyValuesDropped) => edits.retain(|(_, value)| !value.is_empty()),
            Some(Slip::RisingIdsOnly) => {
                let mut next = 0;
                edits.retain(|(id, _)| {
                    let is_rising = *id >= next;
                    next = next.max(*id + 1);
                    is_rising
                });
            }
            Some(Slip::ValuesInListOrder) => {
                let mut ids: Vec<usize> = edits.iter().map(|(id, _)| *id).collect();
                ids.sort();
                edits = ids.into_iter().zip(edits.iter().map(|(_, value)| *value)).collect();
            }
            _ => {}
        }
        edits.into_iter().collect()
    }

    // ---- "in place if every edit could be in place on the image as given, otherwise one rebuild".

    fn is_in_place(&self, values: &BTreeMap<usize, &str>) -> bool {
        let fits = |id: &usize| self.fits(*id, values);
        match self.slip {
            Some(Slip::NeverInPlace) => false,
            Some(Slip::FirstInPlaceAll) => values.keys().next().is_some_and(fits),
            Some(Slip::LastInPlaceAll) => values.keys().next_back().is_some_and(fits),
            Some(Slip::NoneRebuilt) if values.is_empty() => false,
            _ => values.keys().all(fits),
        }
    }

    fn fits(&self, id: usize, values: &BTreeMap<usize, &str>) -> bool {
        let (value, texts) = (values[&id].as_bytes(), &self.parts.texts);
        let (own, is_alike) = (texts[id], texts[id].end - texts[id].start == value.len());
        let is_sized = !own.wide && value.is_ascii() && is_alike;
        let overlaps = |j: usize| {
            let other = texts[j];
            j != id && own.start < other.end && other.start < own.end
        };
        match self.slip {
            Some(Slip::OverlapIgnored) => is_sized,
            Some(Slip::OverlapOfEditedIgnored) => {
                is_sized && !(0..texts.len()).any(|j| overlaps(j) && !values.contains_key(&j))
            }
            _ => self.parts.fits_in_place(id, value),
        }
    }

    fn written_over(&self, values: &BTreeMap<usize, &str>) -> Result<Vec<u8>, u32> {
        let mut new = self.copied()?;
        for (id, value) in values {
            let text = self.parts.texts[*id];
            let length = value.len().min(text.end - text.start);
            let start = self.parts.storage + text.start;
            new[start..start + length].copy_from_slice(&value.as_bytes()[..length]);
        }
        Ok(new)
    }

    fn copied(&self) -> Result<Vec<u8>, u32> {
        match self.room < self.parts.image.len() as u64 {
            true => Err(13),
            false => Ok(self.parts.image.to_vec()),
        }
    }

    fn put_hashes(&self, new: &mut [u8], values: &BTreeMap<usize, &str>, in_place: bool) {
        if in_place && self.slips(Slip::HashesInRebuildOnly) {
            return;
        }
        let is_identifier = |edit: &(usize, &str)| self.parts.identifiers[edit.0];
        let mut edits: Vec<(usize, &str)> =
            values.iter().map(|(id, value)| (*id, *value)).collect();
        edits.retain(is_identifier);
        match self.slip {
            Some(Slip::FirstHashOnly) => edits.truncate(1),
            Some(Slip::LastHashOnly) => edits = edits.split_off(edits.len().saturating_sub(1)),
            Some(Slip::FirstHashInAll) => {
                let first = edits.first().map_or("", |(_, value)| *value);
                edits.iter_mut().for_each(|(_, value)| *value = first);
            }
            _ => {}
        }
        edits.iter().for_each(|(id, value)| self.parts.put_hash(new, *id, value));
    }

    // ---- "11 to 13 judged on the end image only".

    /// What a program would refuse that judged each of the single steps.
    fn steps(&self) -> Result<(), u32> {
        let Some(Slip::StepsJudged(number)) = self.slip else { return Ok(()) };
        let mut image = self.parts.image.to_vec();
        for (id, value) in &self.edits {
            let (value, packing) = (value.to_vec(), self.packing);
            match patch(self.layout, &image, self.room, &Patch::Text { id: *id, value, packing }) {
                Ok(next) => image = next,
                Err(met) if met == number => return Err(number),
                Err(_) => break,
            }
        }
        Ok(())
    }
}
