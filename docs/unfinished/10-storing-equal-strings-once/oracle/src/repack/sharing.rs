//! A second reading of "strings of the same width and the same units share the place of the lowest id among them", document 02,
//! No. 10. Each string is compared with every one before it.

use super::reading::Packer;
use super::slip::Slip::*;
use crate::job::patch::hash;

/// A string of the image as given.
pub struct Said<'a> {
    pub wide: bool,
    pub identifier: bool,
    pub bytes: &'a [u8],
    /// Where it stood in storage.
    pub start: usize,
    /// Whether it had an overflow pair.
    pub has_pair: bool,
    /// What a mistake compares in place of the units.
    pub digest: u64,
}

impl Said<'_> {
    /// The bytes of a unit.
    pub fn width(&self) -> usize {
        1 + usize::from(self.wide)
    }

    pub fn count(&self) -> usize {
        self.bytes.len() / self.width()
    }

    pub fn units(&self) -> impl Iterator<Item = u16> + '_ {
        self.bytes.chunks(self.width()).map(|unit| match *unit {
            [low, high] => u16::from_le_bytes([low, high]),
            _ => unit[0].into(),
        })
    }

    fn end(&self) -> usize {
        self.start + self.bytes.len()
    }
}

/// Whose place a string has. Only by a mistake it starts some bytes behind that.
#[derive(Clone, Copy, PartialEq)]
pub struct Owner {
    pub id: usize,
    pub skipped: usize,
}

impl Packer {
    /// For each string the one whose place it has; its own id where it is the first of those that are alike.
    pub fn owners(self, strings: &[Said]) -> Vec<Owner> {
        let itself = |id| Owner { id, skipped: 0 };
        (0..strings.len()).map(|id| self.owner(strings, id).unwrap_or(itself(id))).collect()
    }

    fn owner(self, strings: &[Said], id: usize) -> Option<Owner> {
        let shares = |other: usize| {
            let skipped = self.shared_part(&strings[other], &strings[id])?;
            Some(Owner { id: other, skipped })
        };
        let mut before = (0..id).filter_map(shares);
        match self.0 {
            Some(HighestOwns) => (id + 1..strings.len()).rev().find_map(shares),
            Some(NeighboursOnly) => id.checked_sub(1).and_then(shares),
            Some(WithFirstOnly) => before.next().filter(|owner| owner.id == 0),
            // The third of those that are alike is stored anew, and the fourth shares that.
            Some(TwoByTwo) if before.by_ref().count() % 2 == 0 => None,
            Some(TwoByTwo) => (0..id).rev().find_map(shares),
            _ => before.next(),
        }
    }

    /// How many bytes behind the start of another string this one stands, where it shares its place.
    fn shared_part(self, other: &Said, own: &Said) -> Option<usize> {
        if other.wide == own.wide {
            let (all, part) = (other.bytes, own.bytes);
            match self.0 {
                Some(FrontsShared) => return all.starts_with(part).then_some(0),
                Some(EndsShared) => {
                    return all.ends_with(part).then(|| all.len() - part.len());
                }
                Some(PartsShared) if !part.is_empty() => {
                    return all.windows(part.len()).position(|window| window == part);
                }
                Some(OldPartsShared) if other.start <= own.start && own.end() <= other.end() => {
                    return Some(own.start - other.start);
                }
                _ => {}
            }
        }
        (self.is_alike(other, own) && !self.is_apart(other, own)).then_some(0)
    }

    fn is_alike(self, other: &Said, own: &Said) -> bool {
        let pair = [other, own];
        let both = |is: fn(&Said) -> bool| is(other) && is(own);
        let [a, b] = pair.map(|said| said.bytes);
        let is_sized = other.wide == own.wide && a.len() == b.len();
        // Where only some bytes of a unit are compared.
        let every = |at: usize| {
            let [a, b] = [a, b].map(|bytes| bytes.iter().skip(at).step_by(2));
            a.eq(b)
        };
        let first = own.width().min(b.len());
        let last = b.len() - first;
        match self.0 {
            Some(NothingShared) => false,
            Some(WidthsAlike) => other.units().eq(own.units()),
            Some(BytesAlike) => a == b,
            Some(LengthsAlike) => is_sized,
            Some(FirstUnitAlike) => is_sized && a[..first] == b[..first],
            Some(LastUnitAlike) => is_sized && a[last..] == b[last..],
            Some(AllButFirstAlike) => is_sized && a[first..] == b[first..],
            Some(AllButLastAlike) => is_sized && a[..last] == b[..last],
            Some(LowBytesAlike) if own.wide => is_sized && every(0),
            Some(HighBytesAlike) if own.wide => is_sized && every(1),
            Some(SumsAlike | HashesAlike) => is_sized && other.digest == own.digest,
            // A small entry says 255 for all that are longer.
            Some(FieldLengthsAlike) => {
                let [a, b] = pair.map(|said| said.units().take(255));
                other.wide == own.wide && a.eq(b)
            }
            Some(UpToZeroAlike) => {
                let [a, b] = [a, b].map(|bytes| bytes.split(|byte| *byte == 0).next());
                is_sized && a == b
            }
            Some(EmptyWidthsAlike) if both(|said| said.bytes.is_empty()) => true,
            Some(OldStartsAlike) if other.wide == own.wide && other.start == own.start => true,
            _ => is_sized && a == b,
        }
    }

    pub fn digest(self, said: &Said) -> u64 {
        match self.0 {
            Some(SumsAlike) => said.units().map(u64::from).sum(),
            Some(HashesAlike) => hash(said.units()).into(),
            _ => 0,
        }
    }

    /// What a mistake stores for itself, though it is alike.
    fn is_apart(self, other: &Said, own: &Said) -> bool {
        match self.0 {
            Some(WideApart) => own.wide,
            Some(NarrowApart) => !own.wide,
            Some(EmptyApart) => own.bytes.is_empty(),
            Some(EmptyWideApart) => own.wide && own.bytes.is_empty(),
            Some(LongApart) => own.count() >= 255,
            Some(PairsApart) => own.has_pair || other.has_pair,
            Some(KindsApart) => own.identifier != other.identifier,
            Some(IdentifiersApart) => own.identifier || other.identifier,
            Some(OldPlacesOnly) => own.start != other.start,
            _ => false,
        }
    }
}
