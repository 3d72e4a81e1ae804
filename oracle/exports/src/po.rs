//! Translators' files: read into an image, and written from one.

use std::io::{self, Write};

use oracle::po::{Answer, Call as Po, Lent};
use oracle::stream::words;

use super::call::{Call, Export};
use super::{bytes, REFUSED};

fn call(po: &Po) -> Call<'_> {
    let (export, file) = match &po.file {
        Some(file) => (Export::ReadPo, &file[..]),
        None => (Export::WritePo, &[][..]),
    };
    Call {
        export,
        layout: po.layout,
        mode: po.mode,
        number: 0,
        inputs: [&po.image, file, &[], &[]],
    }
}

/// Our answer to a call.
pub fn answered(po: &Po) -> Answer {
    let mut lent = po.lent.clone();
    let (mut ends, mut work) = (bytes(&lent.ends), bytes(&lent.work));
    let number = call(po).make_in(&mut [&mut lent.out, &mut lent.text, &mut ends, &mut work]);
    lent.ends = words(&ends);
    lent.work = words(&work);
    let end = match number.checked_sub(REFUSED) {
        Some(number) => Err(number as u32),
        None => Ok(number as usize),
    };
    Answer { end, lent }
}

/// A call, and its answer, as the program of the exports reads the one and writes the other.
pub fn record(
    po: &Po,
    answer: &Answer,
    calls: &mut impl Write,
    answers: &mut impl Write,
) -> io::Result<()> {
    let parts =
        |lent: &Lent| [lent.out.clone(), lent.text.clone(), bytes(&lent.ends), bytes(&lent.work)];
    let [mut out, mut text, mut ends, mut work] = parts(&po.lent);
    call(po).write(calls, &[&mut out, &mut text, &mut ends, &mut work])?;
    let number = match answer.end {
        Ok(length) => length as u64,
        Err(number) => REFUSED + u64::from(number),
    };
    answers.write_all(&number.to_le_bytes())?;
    answers.write_all(&parts(&answer.lent).concat())
}
