//! The frames that both sides of a comparison read and write. All words are little-endian.

use std::io::{self, Read, Write};

use crate::family::{Family, Function};

pub const ARGUMENTS: usize = 32;
pub const RESULTS: usize = 10;

/// A call: its number, the buffer's length, the arguments, the buffer.
pub struct Call {
    pub function: &'static Function,
    pub arguments: [u32; ARGUMENTS],
    pub buffer: Vec<u8>,
}

/// An answer: the status, the results, and the buffer as the call left it, as long as before.
#[derive(PartialEq)]
pub struct Answer {
    pub status: u32,
    pub results: [u32; RESULTS],
    pub buffer: Vec<u8>,
}

impl Call {
    pub fn new(function: &'static Function, arguments: &[u32], buffer: Vec<u8>) -> Call {
        Call { function, arguments: filled(arguments), buffer }
    }

    /// None at the stream's end, and for bytes that are no call: there the answering program stops.
    pub fn read(family: &Family, from: &mut impl Read) -> Option<Call> {
        let [number, length] = read_words(from)?;
        let function = family.functions.iter().find(|function| function.number == number)?;
        if length as usize > family.longest_buffer {
            return None;
        }
        let arguments = read_words(from)?;
        Some(Call { function, arguments, buffer: read_bytes(from, length as usize)? })
    }

    pub fn write(&self, to: &mut impl Write) -> io::Result<()> {
        write_words(to, &[self.function.number, self.buffer.len() as u32])?;
        write_words(to, &self.arguments)?;
        to.write_all(&self.buffer)
    }

    /// The answer that gives no result and leaves the buffer as it was.
    pub fn refused(&self, status: u32) -> Answer {
        Answer { status, results: [0; RESULTS], buffer: self.buffer.clone() }
    }
}

impl Answer {
    pub fn new(status: u32, results: &[u32], buffer: Vec<u8>) -> Answer {
        Answer { status, results: filled(results), buffer }
    }

    pub fn read(from: &mut impl Read, length: usize) -> Option<Answer> {
        let [status] = read_words(from)?;
        let results = read_words(from)?;
        Some(Answer { status, results, buffer: read_bytes(from, length)? })
    }

    pub fn write(&self, to: &mut impl Write) -> io::Result<()> {
        write_words(to, &[self.status])?;
        write_words(to, &self.results)?;
        to.write_all(&self.buffer)
    }
}

/// The words, with zeros for those that are not used.
fn filled<const N: usize>(words: &[u32]) -> [u32; N] {
    let mut all = [0; N];
    all[..words.len()].copy_from_slice(words);
    all
}

fn read_bytes(from: &mut impl Read, length: usize) -> Option<Vec<u8>> {
    let mut bytes = vec![0; length];
    from.read_exact(&mut bytes).ok()?;
    Some(bytes)
}

fn read_words<const N: usize>(from: &mut impl Read) -> Option<[u32; N]> {
    let bytes = read_bytes(from, 4 * N)?;
    Some(filled(&words(&bytes)))
}

fn write_words(to: &mut impl Write, words: &[u32]) -> io::Result<()> {
    words.iter().try_for_each(|word| to.write_all(&word.to_le_bytes()))
}

/// The bytes as words; there are four for each.
pub fn words(bytes: &[u8]) -> Vec<u32> {
    bytes.chunks_exact(4).map(|word| u32::from_le_bytes(word.try_into().unwrap())).collect()
}
