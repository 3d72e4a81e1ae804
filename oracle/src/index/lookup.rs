//! A second reading of document 02, No. 13: a lookup in any words, told how many strings they are for.

use super::reading::{Reader, SHORT};
use super::slip::Slip::*;
use crate::family::STOPPED;

/// There is no such id.
const ABSENT: u32 = 7;

impl Reader {
    /// "lookup, 7 for an id not below the count, then 13 likewise"; else "a lookup answers what the three runs hold".
    pub fn look_up(self, index: &[u32], count: u64, id: u64) -> Result<[u32; 3], u32> {
        let cut = |slip, number| if self.slips(slip) { number % (1 << 32) } else { number };
        let (count, id) = (cut(CountCut, count), cut(IdCut, id));
        let absent = if self.slips(IdOfCountTaken) { id > count } else { id >= count };
        let short = (index.len() as u128) < self.needed(count, id);
        let mut refusals = [(absent, ABSENT), (short, SHORT)];
        if self.slips(RoomBeforeId) {
            refusals.reverse();
        }
        if let Some((_, number)) = refusals.into_iter().find(|(refused, _)| *refused) {
            return Err(number);
        }
        let mut words = [0; 3];
        for (k, word) in (0..).zip(&mut words) {
            // Only by a mistake is a word read that the index does not have, and there a program would stop.
            *word = *index.get(self.at(index, count, id, k)).ok_or(STOPPED)?;
        }
        Ok(self.read(words))
    }

    /// How many words are three for each string: a number that 64 bits need not hold.
    fn needed(self, count: u64, id: u64) -> u128 {
        let exact = 3 * u128::from(count);
        match self.0 {
            Some(ProductWraps32) => exact % (1 << 32),
            Some(ProductWraps64) => exact % (1 << 64),
            Some(RoomByOneLessLooked) => exact.saturating_sub(1),
            Some(RoomByOneMoreLooked) => exact + 1,
            Some(RoomForOneRunLooked) => count.into(),
            Some(RoomAsFarAsRead) => 2 * u128::from(count) + u128::from(id) + 1,
            _ => exact,
        }
    }

    /// The place of the word of an id in run k. It wraps only where a mistake took a count that is too large.
    fn at(self, index: &[u32], count: u64, id: u64, k: u64) -> usize {
        let at = match self.0 {
            Some(ReadByThirds) => k * (index.len() as u64 / 3) + id,
            Some(ReadSideBySide) => 3 * id + k,
            _ => k.wrapping_mul(count).wrapping_add(id),
        };
        at as usize
    }

    /// The words of a string as they are answered: all their bits, whatever they were filled from.
    fn read(self, [offset, length, flags]: [u32; 3]) -> [u32; 3] {
        match self.0 {
            Some(OffsetsReadAsLengths) => [length, offset, flags],
            Some(OffsetsReadAsFlags) => [flags, length, offset],
            Some(LengthsReadAsFlags) => [offset, flags, length],
            Some(FlagsOfTwoBits) => [offset, length, flags & 3],
            Some(OffsetOf23Bits) => [offset & 0x7f_ffff, length, flags],
            Some(LengthOf8Bits) => [offset, length & 0xff, flags],
            _ => [offset, length, flags],
        }
    }
}
