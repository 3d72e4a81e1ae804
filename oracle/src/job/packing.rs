//! A second reading of document 01, "Strings", and of document 02, No. 2: where a rebuild puts each string.

/// How a rebuild packs strings, as its caller chooses.
#[derive(Clone, Copy, PartialEq)]
pub enum Mode {
    /// Document 01's: each string starts where the one before it ends.
    Plain,
    /// "a wide string starts at an even storage offset, with one zero byte before it when needed".
    Even,
}

pub const MODES: [Mode; 2] = [Mode::Plain, Mode::Even];

/// Mistakes that a program could make with the modes.
#[derive(Clone, Copy, PartialEq, Debug)]
pub enum Slip {
    EvenAsPlain,
    PlainAsEven,
    InPlaceOnlyWhereEven,
    NarrowPadded,
    EmptyNotPadded,
    NewNotPadded,
    OthersNotPadded,
    FirstGapOnly,
    OddPlaces,
    PlacesOfFour,
    OldPlaceJudged,
    GapBehind,
    GapNotZero,
    GapNotInLaterOffsets,
    GapsNotInSize,
    LastGapNotInSize,
    SmallEntryBeforeGap,
    PairBeforeGap,
    OverflowBeforeGap,
    /// A refusal by its number, judged by the sizes of the plain mode.
    JudgedPlain(u32),
}

/// Every mistake, but for the overflow test before the gap: no call holds so much storage, `limits` does.
pub fn slips() -> Vec<Slip> {
    use Slip::*;
    let mut slips = vec![
        EvenAsPlain,
        PlainAsEven,
        InPlaceOnlyWhereEven,
        NarrowPadded,
        EmptyNotPadded,
        NewNotPadded,
        OthersNotPadded,
        FirstGapOnly,
        OddPlaces,
        PlacesOfFour,
        OldPlaceJudged,
        GapBehind,
        GapNotZero,
        GapNotInLaterOffsets,
        GapsNotInSize,
        LastGapNotInSize,
        SmallEntryBeforeGap,
        PairBeforeGap,
    ];
    slips.extend([11, 12, 13].map(JudgedPlain));
    slips
}

/// How strings are packed.
#[derive(Clone, Copy)]
pub struct Packing {
    pub mode: Mode,
    /// A mistake made on purpose, so that the calls can be seen to find it.
    pub slip: Option<Slip>,
}

/// A string that is to be packed.
pub struct Piece<'a> {
    pub wide: bool,
    pub bytes: &'a [u8],
    /// Where it stood in storage; None for the new one.
    pub old: Option<usize>,
}

impl Piece<'_> {
    fn size(&self) -> u64 {
        self.bytes.len() as u64
    }
}

/// The words of the tables, and where in storage each string starts.
#[derive(Default)]
pub struct Packed {
    pub smalls: Vec<u32>,
    /// Two words for each overflow entry.
    pub pairs: Vec<u32>,
    pub size: u64,
    starts: Vec<u64>,
}

impl Packing {
    pub const PLAIN: Packing = Packing { mode: Mode::Plain, slip: None };

    pub fn slips(&self, slip: Slip) -> bool {
        self.slip == Some(slip)
    }

    fn is_even(&self) -> bool {
        match self.slip {
            Some(Slip::EvenAsPlain) => false,
            Some(Slip::PlainAsEven) => true,
            _ => self.mode == Mode::Even,
        }
    }

    /// The strings in the order of their ids.
    pub fn pack(&self, pieces: &[Piece]) -> Packed {
        let mut packed = Packed::default();
        let (mut due, mut gaps) = (0, 0);
        for piece in pieces {
            let gap = self.gap(piece, due, gaps);
            let start = if self.slips(Slip::GapBehind) { due } else { due + gap };
            self.put_entry(&mut packed, piece, due, start);
            packed.starts.push(start);
            packed.size = due + gap + piece.size();
            if self.slips(Slip::LastGapNotInSize) && piece.bytes.is_empty() {
                packed.size = due;
            }
            due += piece.size() + if self.slips(Slip::GapNotInLaterOffsets) { 0 } else { gap };
            gaps += gap;
        }
        if self.slips(Slip::GapsNotInSize) {
            packed.size -= gaps;
        }
        packed
    }

    /// The bytes between a string that is due at an offset and the one before; so many stand between others already.
    fn gap(&self, piece: &Piece, due: u64, gaps: u64) -> u64 {
        let is_padded = match self.slip {
            Some(Slip::NarrowPadded) => true,
            Some(Slip::EmptyNotPadded) => piece.wide && !piece.bytes.is_empty(),
            Some(Slip::NewNotPadded) => piece.wide && piece.old.is_some(),
            Some(Slip::OthersNotPadded) => piece.wide && piece.old.is_none(),
            Some(Slip::FirstGapOnly) => piece.wide && gaps == 0,
            _ => piece.wide,
        };
        match self.slip {
            _ if !self.is_even() || !is_padded => 0,
            Some(Slip::OddPlaces) => 1 - due % 2,
            Some(Slip::PlacesOfFour) => due.next_multiple_of(4) - due,
            Some(Slip::OldPlaceJudged) => piece.old.map_or(due, |old| old as u64) % 2,
            _ => due.next_multiple_of(2) - due,
        }
    }

    fn put_entry(&self, packed: &mut Packed, piece: &Piece, due: u64, start: u64) {
        let at = |slip| if self.slips(slip) { due } else { start };
        let length = if piece.wide { piece.size() / 2 } else { piece.size() };
        let wide = u32::from(piece.wide);
        if at(Slip::OverflowBeforeGap) >= 0x80_0000 || length >= 255 {
            packed.smalls.push(0xff << 24 | (packed.pairs.len() as u32 / 2) << 1 | wide);
            // Cut where the image is refused anyway: a sum past the limit comes first.
            packed.pairs.extend([at(Slip::PairBeforeGap) as u32, length as u32]);
        } else {
            packed.smalls.push((length << 24 | at(Slip::SmallEntryBeforeGap) << 1) as u32 | wide);
        }
    }

    /// The bytes of storage, with zeros where no string is.
    pub fn storage(&self, packed: &Packed, pieces: &[Piece]) -> Vec<u8> {
        let filler = if self.slips(Slip::GapNotZero) { 0xff } else { 0 };
        let mut storage = vec![];
        for (piece, start) in pieces.iter().zip(&packed.starts) {
            let place = *start as usize..*start as usize + piece.bytes.len();
            storage.resize(storage.len().max(place.end), filler);
            storage[place].copy_from_slice(piece.bytes);
        }
        storage.resize(packed.size as usize, filler);
        storage
    }
}
