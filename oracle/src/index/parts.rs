//! A second reading of document 02, No. 13, for the listing: a part of it, and the index that is lent for it.

use super::listing;
use super::reading::{strings, Reader, SHORT};
use super::slip::Slip::*;
use crate::image::layout::{Layout, STRINGS};
use crate::image::reading::Reading;
use crate::image::walk::Located;

/// The most bytes of a part.
const PART: usize = 67_108_864;

impl Reader {
    /// A part of the listing, from a byte of it on: as many bytes as there are, and as the output has. The index is
    /// judged as in filling; where it is long enough it is the filled one then, whatever is answered.
    pub fn list(
        self,
        layout: Layout,
        image: &[u8],
        from: u64,
        index: &mut [u32],
        out: &mut [u8],
    ) -> Result<u32, u32> {
        let reading = self.admitted(layout, image, index)?;
        let short = self.is_short(&reading, index);
        if short && !matches!(self.0, Some(WrittenThenRefused | ShortIndexTaken)) {
            self.write_where_short(&reading, index);
            return Err(SHORT);
        }
        let strings = strings(&reading);
        let old = self.slips(OldIndexRead).then(|| held(&reading, index));
        let lines = listing::lines(&reading, old.as_ref().unwrap_or(&strings));
        let put = self.strings_put(&lines, strings.len(), from, out.len());
        self.put(&reading, &strings[..put], index);
        if self.slips(IndexCleared) {
            index.fill(0);
        }
        let part = self.part(&lines, from, out.len());
        if self.slips(RoomForAllAsked) && part.len() < self.part(&lines, from, PART).len() {
            return Err(SHORT);
        }
        out[..part.len()].copy_from_slice(&part);
        if self.slips(RestOfOutputCleared) {
            out[part.len()..].fill(0);
        }
        if short && self.slips(WrittenThenRefused) {
            return Err(SHORT);
        }
        Ok(part.len() as u32)
    }

    fn part(self, lines: &[String], from: u64, room: usize) -> Vec<u8> {
        let from = match self.0 {
            Some(FromCut) => from % (1 << 32),
            Some(FromLeftOut) => 0,
            _ => from,
        };
        let listing = lines.concat().into_bytes();
        let left = listing.len().saturating_sub(usize::try_from(from).unwrap());
        let mut part = listing[listing.len() - left..].to_vec();
        part.truncate(room.min(PART));
        let line_feed = part.iter().rposition(|byte| *byte == b'\n');
        match self.0 {
            Some(WholeLinesOnly) => part.truncate(line_feed.map_or(0, |at| at + 1)),
            Some(LastByteLeftOut) => part.truncate(part.len().saturating_sub(1)),
            _ => {}
        }
        part
    }

    /// How many strings go into the index: all of them, however few are listed.
    fn strings_put(self, lines: &[String], count: usize, from: u64, room: usize) -> usize {
        let length = |lines: &[String]| lines.concat().len() as u64;
        let end = from.saturating_add(room as u64);
        match self.0 {
            Some(IndexLeft) => 0,
            Some(IndexLeftWithoutRoom) if room == 0 => 0,
            Some(IndexLeftPastEnd) if from >= length(lines) => 0,
            // The line of a string stands behind the first one and those of the strings before it.
            Some(IndexAsFarAsListed) => {
                (0..count).filter(|id| length(&lines[..=*id]) < end).count()
            }
            _ => count,
        }
    }
}

/// The strings as they stand in an index that was not filled anew. None is longer than an image of a call.
fn held(reading: &Reading, index: &[u32]) -> Vec<Located> {
    let count = reading.count(STRINGS) as usize;
    let storage = reading.places().storage;
    let mut identifiers = 0;
    let mut string = |id: usize| {
        let [offset, length, flags] = [0, 1, 2].map(|k| u64::from(index[k * count + id]));
        let (wide, identifier) = (flags & 1 != 0, flags & 2 != 0);
        let rank = identifier.then_some(identifiers);
        identifiers += usize::from(identifier);
        let (start, units) = (storage + offset, length.min(reading.image.len() as u64));
        Located { start, bytes: 0, units, wide, identifier, small: 0, pairs: 0, rank }
    };
    (0..count).map(&mut string).collect()
}
