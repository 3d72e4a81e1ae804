//! Equal strings stored once.

use oracle::job::packing::Mode;
use oracle::repack::reading::Asked;

use super::call::{Call, Export};
use super::{bytes, REFUSED};

/// We answer so: the work space that held the one words holds the others, and so does the output with its bytes.
pub fn is_repacked(
    asked: &Asked,
    answer: &Result<u32, u32>,
    work: [&[u32]; 2],
    out: [&[u8]; 2],
) -> bool {
    let number = match *answer {
        Ok(length) => length.into(),
        Err(number) => REFUSED + u64::from(number),
    };
    let ([mut held, left], mut made) = (work.map(bytes), out[0].to_vec());
    let (layout, mode) = (asked.layout.0, u8::from(asked.mode == Mode::Even));
    let inputs = [asked.image, &[], &[], &[]];
    let call = Call { export: Export::Repack, layout, mode, number: 0, inputs };
    call.make_in(&mut [&mut made, &mut [], &mut [], &mut held]) == number
        && held == left
        && made == out[1]
}
