//! Why a patch rebuilds.

use oracle::job::packing::Mode;
use oracle::why::reading::{Asked, Reason};

use super::call::{Call, Export};
use super::{bytes, OLD, REFUSED};

/// We answer so: the words of the reason, and the word behind them stays, or the number, and all of them stay; and the index
/// that held the one words holds the others.
pub fn is_told(asked: &Asked, answer: &Result<Reason, u32>, index: [&[u32]; 2]) -> bool {
    let (number, words) = match answer {
        Ok(reason) => (3, bytes(&reason.words())),
        Err(number) => (REFUSED + u64::from(*number), vec![]),
    };
    let [mut held, left] = index.map(bytes);
    let mut out = [OLD; 16];
    let (layout, mode) = (asked.layout.0, u8::from(asked.mode == Mode::Even));
    let inputs = [asked.image, asked.value, &[], &[]];
    let call = Call { export: Export::Why, layout, mode, number: asked.id as u32, inputs };
    call.make_in(&mut [&mut out, &mut [], &mut [], &mut held]) == number
        && held == left
        && out.starts_with(&words)
        && out[words.len()..].iter().all(|byte| *byte == OLD)
}
