//! A second reading of document 01, "Strings", "Bodies" and "Refusal numbers" 7 to 14, and of the modes of
//! document 02, No. 2: one patch of one image. It takes the image apart into values and writes them anew,
//! where our code edits bytes.

use std::collections::BTreeMap;

use hbc_decomp::write::footer::rehash_footer;

use super::packing::{Packed, Packing, Piece, Slip};
use crate::image::layout::*;
use crate::image::reading::Reading;
use crate::leaves::record::{self, set_pointer};

pub enum Patch {
    Text {
        id: u32,
        value: Vec<u8>,
        packing: Packing,
    },
    /// The same by a rebuild, though the value fits in place.
    Rebuilt {
        id: u32,
        value: Vec<u8>,
        packing: Packing,
    },
    Replace {
        old: Vec<u8>,
        value: Vec<u8>,
        packing: Packing,
    },
    Body {
        id: u32,
        bytes: Vec<u8>,
    },
}

const LIMIT: u64 = 67_108_864;
/// The largest offset or info place of a small record.
const FIELD: u64 = 33_554_431;

/// The new image, or the number of the refusal.
pub fn patch(layout: Layout, image: &[u8], room: u64, patch: &Patch) -> Result<Vec<u8>, u32> {
    match (Reading { layout, image, slip: None }).refusal() {
        0 => {}
        number => return Err(number),
    }
    let parts = Parts::of(layout, image);
    match patch {
        Patch::Text { id, value, packing } => parts.with_text(*id as usize, value, *packing, room),
        Patch::Rebuilt { id, value, packing } => {
            parts.packed_anew(*id as usize, value, *packing, room)
        }
        Patch::Replace { old, value, packing } => parts.replaced(old, value, *packing, room),
        Patch::Body { id, bytes } => parts.with_body(*id as usize, bytes, room),
    }
}

/// File length and footer.
pub fn finish(mut image: Vec<u8>) -> Vec<u8> {
    let length = image.len() as u32;
    set_word(&mut image, FILE_LENGTH, length);
    rehash_footer(&mut image).unwrap();
    image
}

/// A string: where its bytes stand in storage.
#[derive(Clone, Copy)]
pub(super) struct Text {
    pub wide: bool,
    pub start: usize,
    pub end: usize,
}

#[derive(Clone, Copy)]
struct Function {
    record: u128,
    header: Option<usize>,
    body: usize,
    size: usize,
    info: usize,
}

/// What an admitted image is made of.
pub(super) struct Parts<'a> {
    layout: Layout,
    pub image: &'a [u8],
    pub hashes: usize,
    pub small: usize,
    pub storage: usize,
    pub tail: usize,
    pub texts: Vec<Text>,
    pub identifiers: Vec<bool>,
    functions: Vec<Function>,
    debug: usize,
}

impl<'a> Parts<'a> {
    pub fn of(layout: Layout, image: &'a [u8]) -> Parts<'a> {
        let places = Reading { layout, image, slip: None }.places();
        let at = |i: usize, start: u64, size: usize| start as usize + i * size;
        let mut pairs = 0;
        let texts = (0..word(image, STRINGS) as usize).map(|i| {
            let entry = word(image, at(i, places.small, 4));
            let (mut start, mut length) =
                ((entry >> 1 & 0x7f_ffff) as usize, (entry >> 24) as usize);
            if length == 255 {
                let pair = at(pairs, places.overflow, 8);
                (start, length) = (word(image, pair) as usize, word(image, pair + 4) as usize);
                pairs += 1;
            }
            let wide = entry & 1 == 1;
            Text { wide, start, end: start + if wide { 2 * length } else { length } }
        });
        let texts = texts.collect();
        let kinds = (0..word(image, KINDS) as usize).map(|i| word(image, at(i, places.kinds, 4)));
        let identifiers = kinds
            .flat_map(|kind| (0..kind & !IDENTIFIER).map(move |_| kind & IDENTIFIER != 0))
            .collect();
        let functions =
            (0..word(image, FUNCTIONS) as usize).map(|i| function(layout, image, i)).collect();
        Parts {
            layout,
            image,
            hashes: places.hashes as usize,
            small: places.small as usize,
            storage: places.storage as usize,
            tail: places.tail as usize,
            texts,
            identifiers,
            functions,
            debug: word(image, layout.debug()) as usize,
        }
    }

    // ---- Strings.

    /// "the lowest such id is patched"
    fn replaced(
        &self,
        old: &[u8],
        value: &[u8],
        packing: Packing,
        room: u64,
    ) -> Result<Vec<u8>, u32> {
        let (Ok(old), Ok(_)) = (std::str::from_utf8(old), std::str::from_utf8(value)) else {
            return Err(8);
        };
        let units: Vec<u16> = old.encode_utf16().collect();
        match self.texts.iter().position(|text| self.units(text) == units) {
            Some(id) => self.with_text(id, value, packing, room),
            None => Err(14),
        }
    }

    fn with_text(
        &self,
        id: usize,
        value: &[u8],
        packing: Packing,
        room: u64,
    ) -> Result<Vec<u8>, u32> {
        let text = self.valued(id, value)?;
        let is_odd = |text: &Text| text.wide && text.start % 2 == 1;
        let is_moved = packing.slips(Slip::InPlaceOnlyWhereEven) && self.texts.iter().any(is_odd);
        if !self.fits_in_place(id, value) || is_moved {
            return self.packed_anew(id, value, packing, room);
        }
        if room < self.image.len() as u64 {
            return Err(13);
        }
        let mut new = self.image.to_vec();
        let start = self.storage + self.texts[id].start;
        new[start..start + value.len()].copy_from_slice(value);
        self.put_hash(&mut new, id, text);
        Ok(finish(new))
    }

    fn packed_anew(
        &self,
        id: usize,
        value: &[u8],
        packing: Packing,
        room: u64,
    ) -> Result<Vec<u8>, u32> {
        let text = self.valued(id, value)?;
        let mut new = self.rebuilt(&BTreeMap::from([(id, text)]), packing, room)?;
        self.put_hash(&mut new, id, text);
        Ok(finish(new))
    }

    /// The value as text, or 7 and 8.
    fn valued<'v>(&self, id: usize, value: &'v [u8]) -> Result<&'v str, u32> {
        if id >= self.texts.len() {
            return Err(7);
        }
        std::str::from_utf8(value).map_err(|_| 8)
    }

    /// An identifier's hash in the slot of its rank.
    pub fn put_hash(&self, new: &mut [u8], id: usize, value: &str) {
        if self.identifiers[id] {
            let rank = self.identifiers[..id].iter().filter(|is| **is).count();
            set_word(new, self.hashes + 4 * rank, hash(value.encode_utf16()));
        }
    }

    pub fn bytes(&self, text: &Text) -> &[u8] {
        &self.image[self.storage + text.start..self.storage + text.end]
    }

    pub fn units(&self, text: &Text) -> Vec<u16> {
        let width = if text.wide { 2 } else { 1 };
        self.bytes(text).chunks(width).map(|unit| number(unit, 0, width) as u16).collect()
    }

    pub fn fits_in_place(&self, id: usize, value: &[u8]) -> bool {
        let own = self.texts[id];
        let overlaps = |other: &Text| own.start < other.end && other.start < own.end;
        let alone = (0..self.texts.len()).all(|j| j == id || !overlaps(&self.texts[j]));
        !own.wide && value.is_ascii() && value.len() == own.end - own.start && alone
    }

    /// The strings packed anew, some with new values, and everything in the tail moved.
    pub fn rebuilt(
        &self,
        values: &BTreeMap<usize, &str>,
        packing: Packing,
        room: u64,
    ) -> Result<Vec<u8>, u32> {
        let stored = |value: &str| match value.is_ascii() {
            true => value.as_bytes().to_vec(),
            false => value.encode_utf16().flat_map(u16::to_le_bytes).collect(),
        };
        let news: BTreeMap<usize, Vec<u8>> =
            values.iter().map(|(id, value)| (*id, stored(value))).collect();
        let mut pieces: Vec<Piece> = self.texts.iter().map(|text| self.piece(text)).collect();
        for (id, bytes) in &news {
            pieces[*id] = Piece { wide: !values[id].is_ascii(), bytes, old: None };
        }
        let packed = packing.pack(&pieces);
        let tail = self.tail_behind(&packed);
        let rest = (self.image.len() - self.tail) as u64;
        let moved_to = |tail: u64| move |place: usize| place as u64 + tail - self.tail as u64;
        let judged = |number: u32| match packing.slips(Slip::JudgedPlain(number)) {
            true => self.tail_behind(&Packing::PLAIN.pack(&pieces)),
            false => tail,
        };
        let has_room = judged(13) + rest <= room;
        self.judge(judged(11) + rest, &moved_to(judged(12)), true, has_room)?;

        let storage = packing.storage(&packed, &pieces);
        Ok(self.with_tail(self.front(&packed.smalls, &packed.pairs, &storage), true))
    }

    /// Other tables and storage behind what stands before them, up to the place of the tail.
    pub fn front(&self, smalls: &[u32], pairs: &[u32], storage: &[u8]) -> Vec<u8> {
        let mut new = self.image[..self.small].to_vec();
        set_word(&mut new, OVERFLOWS, pairs.len() as u32 / 2);
        set_word(&mut new, STORAGE, storage.len() as u32);
        new.extend(smalls.iter().chain(pairs).flat_map(|word| word.to_le_bytes()));
        new.extend(storage);
        new.resize(new.len().next_multiple_of(4), 0);
        new
    }

    /// The tail behind another front, with all places in it moved. `whole`: as in `relocate`.
    pub fn with_tail(&self, front: Vec<u8>, whole: bool) -> Vec<u8> {
        let tail = front.len() as u64;
        let mut new = front;
        new.extend(&self.image[self.tail..]);
        self.relocate(&mut new, &|place| place as u64 + tail - self.tail as u64, whole, None);
        new
    }

    fn piece(&self, text: &Text) -> Piece<'_> {
        Piece { wide: text.wide, bytes: self.bytes(text), old: Some(text.start) }
    }

    /// Where the tail starts behind new tables and storage.
    fn tail_behind(&self, packed: &Packed) -> u64 {
        let tables = 4 * (packed.smalls.len() + packed.pairs.len()) as u64;
        (self.small as u64 + tables + packed.size).div_ceil(4) * 4
    }

    // ---- Bodies.

    fn with_body(&self, id: usize, bytes: &[u8], room: u64) -> Result<Vec<u8>, u32> {
        let Some(own) = self.functions.get(id) else {
            return Err(7);
        };
        let threshold = own.body + own.size;
        let others = self.functions.iter().enumerate().filter(|(i, _)| *i != id);
        let shares = |f: &Function| {
            own.body < f.body + f.size && f.body < threshold && own.size > 0 && f.size > 0
        };
        let within = |f: &Function| f.size == 0 && own.body < f.body && f.body < threshold;
        let info = |f: &Function| f.info != 0 && own.body <= f.info && f.info < threshold;
        if others.clone().any(|(_, f)| shares(f) || within(f))
            || self.functions.iter().any(info)
            || self.debug != 0 && self.debug < threshold
        {
            return Err(9);
        }
        if own.size == 0 && !bytes.is_empty() {
            return Err(10);
        }
        let length = (self.image.len() - own.size + bytes.len()) as u64;
        let moved = |place: usize| {
            let grown =
                place + bytes.len() - if place >= threshold { own.size } else { bytes.len() };
            grown as u64
        };
        let most = if self.layout.is_modern() { 16_383 } else { 32_767 };
        let fits = own.header.is_some() || bytes.len() <= most;
        self.judge(length, &moved, fits, length <= room)?;

        let mut new = self.image[..own.body].to_vec();
        new.extend(bytes);
        new.extend(&self.image[threshold..]);
        if bytes.len() != own.size {
            self.relocate(&mut new, &moved, false, Some((id, bytes.len())));
        }
        Ok(finish(new))
    }

    // ---- Both.

    /// 11, 12, 13.
    fn judge(
        &self,
        length: u64,
        moved: &dyn Fn(usize) -> u64,
        fits: bool,
        has_room: bool,
    ) -> Result<(), u32> {
        let far = |place: usize| place != 0 && moved(place) > FIELD;
        let small = |f: &&Function| f.header.is_none();
        if length > LIMIT {
            Err(11)
        } else if !fits || self.functions.iter().filter(small).any(|f| far(f.body) || far(f.info)) {
            Err(12)
        } else if !has_room {
            Err(13)
        } else {
            Ok(())
        }
    }

    /// Writes each record, each large header and the debug offset with their moved places. `whole`: a
    /// large pointer is written at any rate, else where it moves.
    fn relocate(
        &self,
        new: &mut [u8],
        moved: &dyn Fn(usize) -> u64,
        whole: bool,
        resized: Option<(usize, usize)>,
    ) {
        let place = |old: usize| if old == 0 { 0 } else { moved(old) };
        for (id, f) in self.functions.iter().enumerate() {
            let size = resized.filter(|(i, _)| *i == id).map(|(_, size)| size as u64);
            let mut number = f.record;
            if let Some(header) = f.header {
                let at = place(header);
                if whole || at != header as u64 {
                    if !self.layout.is_modern() {
                        number = record::OFFSET.set(number, 0);
                    }
                    number = set_pointer(self.layout.pointer(), number, at);
                }
                let at = at as usize;
                set_word(new, at, place(f.body) as u32);
                if let Some(size) = size {
                    set_word(new, at + self.layout.large_size(), size as u32);
                }
                if let Some(info) = self.layout.large_info() {
                    set_word(new, at + info, place(f.info) as u32);
                }
            } else {
                number = record::OFFSET.set(number, place(f.body));
                if let Some(size) = size {
                    number = self.layout.size().set(number, size);
                }
                if let Some(info) = self.layout.info() {
                    number = info.set(number, place(f.info));
                }
            }
            crate::image::maker::put_record(self.layout, new, id, number);
        }
        set_word(new, self.layout.debug(), place(self.debug) as u32);
    }
}

fn function(layout: Layout, image: &[u8], id: usize) -> Function {
    let size = layout.record();
    let record = number(image, HEADER + id * size, size);
    if layout.flags().get(record) as u64 & LARGE_FLAG == 0 {
        return Function {
            record,
            header: None,
            body: record::OFFSET.get(record) as usize,
            size: layout.size().get(record) as usize,
            info: layout.info().map_or(0, |info| info.get(record) as usize),
        };
    }
    let [low, high] = layout.pointer();
    let header = (low.get(record) as usize) | (high.get(record) as usize) << low.width;
    Function {
        record,
        header: Some(header),
        body: word(image, header) as usize,
        size: word(image, header + layout.large_size()) as usize,
        info: layout.large_info().map_or(0, |info| word(image, header + info) as usize),
    }
}

/// "per UTF-16 unit, add it, add the sum shifted left 10, xor with itself shifted right 6"
pub(super) fn hash(units: impl IntoIterator<Item = u16>) -> u32 {
    units.into_iter().fold(0u32, |hash, unit| {
        let sum = hash.wrapping_add(unit.into());
        let sum = sum.wrapping_add(sum << 10);
        sum ^ sum >> 6
    })
}
