//! Images near the limits of 11 and 12: short ones, whose strings share storage, so that a rebuild makes them long. String 0
//! stands alone, or another lies over it, and so the same edit is in place or rebuilds.
//!
//! Those that share are wide, of an even number of bytes, and string 0 has four: so a rebuild in even mode makes one gap, where
//! it makes any.

use crate::patches::odd::ending_at;
use crate::patches::small::{Bare, Places};

/// The letters of string 0.
const OLD: &[u8] = b"abcd";

#[derive(Clone, Copy)]
pub struct Near {
    pub layout: u8,
    /// How long the storage is that the other strings share: an even number.
    pub shared: usize,
    /// Where the tail comes to start, behind so many bytes of padding, where a rebuild in plain mode sets string 0 to a
    /// value. With 0 or 2 of them the even mode makes a gap then.
    pub tail: usize,
    pub padding: usize,
    pub value: &'static str,
    pub function: Option<Places>,
    /// The bytes of the tail.
    pub tail_bytes: usize,
    /// Whether the last string lies over string 0.
    pub overlapped: bool,
}

impl Near {
    pub fn image(&self) -> Vec<u8> {
        ending_at(self.layout, self.tail, self.padding, self.value, |bytes| {
            self.filled(bytes).image()
        })
    }

    /// The strings behind string 0 take so many bytes where none is shared, and three more.
    fn filled(&self, bytes: usize) -> Bare {
        let behind = OLD.len();
        let last = if self.overlapped { 1 } else { behind };
        let mut strings = vec![(false, false, 0, behind)];
        let wide = (true, false, behind, self.shared / 2);
        strings.extend(std::iter::repeat_n(wide, bytes / self.shared));
        strings.push((false, false, behind, bytes % self.shared));
        strings.extend([(true, false, behind, 1), (false, false, last, 1)]);
        let storage = [OLD, &vec![b'a'; self.shared]].concat();
        let functions = self.function.into_iter().collect();
        let (layout, tail, kinds) =
            (self.layout, self.tail_bytes, Some(vec![strings.len() as u32]));
        Bare { layout, strings, storage, kinds, functions, tail, ..Bare::default() }
    }
}
