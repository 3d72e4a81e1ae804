//! A second reading of "overlap, with the lowest overlapping id", document 02, No. 6: two entries overlap where they share a
//! byte, or where one is empty and stands strictly within the other. Document 01 says so in one sentence, "start < other
//! end and other start < end".

use super::reading::{Question, Reason};
use super::slip::Slip::*;
use crate::image::walk::Located;

/// Where a string stands in storage.
#[derive(Clone, Copy, PartialEq)]
pub struct Place {
    pub start: u64,
    pub end: u64,
}

impl Place {
    fn is_empty(self) -> bool {
        self.start == self.end
    }

    fn shares_a_byte(self, other: Place) -> bool {
        self.start.max(other.start) < self.end.min(other.end)
    }

    fn is_empty_within(self, other: Place) -> bool {
        self.is_empty() && other.start < self.start && self.end < other.end
    }
}

impl Question<'_> {
    /// The reason, where an entry overlaps that of the string.
    pub fn overlap(&self, own: &Located) -> Option<Reason> {
        let id = self.asked.id as usize;
        let is_other = |other: &usize| *other != id || self.reader.slips(OwnCounted);
        let looked_at = (0..self.strings.len()).filter(is_other);
        let looked_at = looked_at.filter(|other| self.is_looked_at(own, *other));
        let overlapping: Vec<usize> =
            looked_at.filter(|other| self.overlaps(self.place(id), self.place(*other))).collect();
        let lowest = *overlapping.first()?;
        let told = match self.slip() {
            Some(HighestTold) => *overlapping.last()?,
            Some(NearestTold) => *overlapping.iter().min_by_key(|other| id.abs_diff(**other))?,
            Some(BehindFirstTold) => {
                *overlapping.iter().find(|other| **other > id).unwrap_or(&lowest)
            }
            Some(OwnIdTold) => id,
            Some(CountTold) => overlapping.len(),
            Some(IdsFromOne) => lowest + 1,
            _ => lowest,
        };
        Some(Reason::Overlap(told as u32))
    }

    /// Every other entry is; a mistake leaves some out.
    fn is_looked_at(&self, own: &Located, other: usize) -> bool {
        let (id, string) = (self.asked.id as usize, &self.strings[other]);
        match self.slip() {
            Some(OverlapNotAsked) => false,
            Some(LowerIdsMissed) => other > id,
            Some(HigherIdsMissed) => other < id,
            Some(NeighboursOnly) => id.abs_diff(other) == 1,
            Some(FirstStringMissed) => other != 0,
            Some(LastStringMissed) => other + 1 != self.strings.len(),
            Some(OtherKindMissed) => string.identifier == own.identifier,
            Some(WideMissed) => !string.wide,
            _ => true,
        }
    }

    fn overlaps(&self, own: Place, other: Place) -> bool {
        let overlaps =
            own.shares_a_byte(other) || other.is_empty_within(own) || own.is_empty_within(other);
        let part = |start, end| Place { start, end };
        match self.slip() {
            // Left out.
            Some(EmptyWithinMissed) => overlaps && !other.is_empty(),
            Some(WithinEmptyMissed) => overlaps && !own.is_empty(),
            Some(SamePlaceMissed) => overlaps && own != other,
            Some(SameStartMissed) => overlaps && own.start != other.start,
            Some(SameEndMissed) => overlaps && own.end != other.end,
            Some(CoveringMissed) => overlaps && !(other.start < own.start && own.end < other.end),
            Some(WithinMissed) => overlaps && !(own.start < other.start && other.end < own.end),
            Some(FirstByteMissed) => overlaps && part(own.start + 1, own.end).shares_a_byte(other),
            Some(LastByteMissed) => {
                overlaps && part(own.start, own.end.saturating_sub(1)).shares_a_byte(other)
            }
            // Counted besides.
            Some(EmptyAtStartCounted) => {
                overlaps || other.is_empty() && !own.is_empty() && other.start == own.start
            }
            Some(EmptyAtEndCounted) => {
                overlaps || other.is_empty() && !own.is_empty() && other.end == own.end
            }
            Some(EmptyTwiceCounted) => overlaps || own.is_empty() && own == other,
            Some(EdgeBeforeCounted) => overlaps || !other.is_empty() && other.end == own.start,
            Some(EdgeBehindCounted) => overlaps || !other.is_empty() && own.end == other.start,
            _ => overlaps,
        }
    }
}
