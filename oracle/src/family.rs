//! Families of calls: those that one program of ours answers.

use std::panic::{catch_unwind, AssertUnwindSafe};

use crate::random::Random;
use crate::stream::{Answer, Call, ARGUMENTS};
use crate::{builder, image, index, leaves, patches, why};

pub const DONE: u32 = 0;
/// The Rust stopped with a panic.
pub const STOPPED: u32 = 255;

pub struct Family {
    pub name: &'static str,
    pub functions: &'static [Function],
    pub longest_buffer: usize,
    pub fixed: fn() -> Vec<Call>,
    pub random: fn(&mut Random) -> Call,
    pub departures: &'static [Departure],
}

/// How a call is answered: results, or a refusal by its number in document 01.
pub type Answered = Result<Vec<u32>, u32>;

pub struct Function {
    pub number: u32,
    pub name: &'static str,
    pub arguments: &'static [Argument],
    pub run: fn(&[u32; ARGUMENTS], &mut [u8]) -> Answered,
}

/// What an argument word is.
#[derive(Clone, Copy)]
pub enum Argument {
    /// Any word. Where the function takes a byte, the low 8 bits count.
    Word(&'static str),
    /// 0 or 1.
    Flag(&'static str),
    /// The 32 bits of a signed number.
    Delta,
    /// The two halves of a place, a length, a count or an id, one behind the other.
    LongLow(&'static str),
    LongHigh(&'static str),
}

impl Argument {
    pub fn name(self) -> String {
        match self {
            Argument::Word(name) | Argument::Flag(name) => name.into(),
            Argument::Delta => "delta".into(),
            Argument::LongLow(name) => format!("{name}, low half"),
            Argument::LongHigh(name) => format!("{name}, high half"),
        }
    }
}

/// A listed departure from the Rust. A difference that none of them explains fails the comparison.
pub struct Departure {
    pub name: &'static str,
    pub explains: fn(&Call, &Answer, &Answer) -> bool,
}

pub static FAMILIES: [&Family; 6] = [
    &leaves::FAMILY,
    &builder::FAMILY,
    &image::FAMILY,
    &patches::FAMILY,
    &index::FAMILY,
    &why::FAMILY,
];

impl Family {
    /// The family that the program's first argument names, and the arguments after it.
    pub fn of_arguments() -> Option<(&'static Family, Vec<String>)> {
        let mut words = std::env::args().skip(1);
        let name = words.next()?;
        let family = FAMILIES.iter().find(|family| family.name == name)?;
        Some((family, words.collect()))
    }

    pub fn function(&self, name: &str) -> &'static Function {
        self.functions.iter().find(|function| function.name == name).unwrap()
    }
}

impl Call {
    pub fn answer(&self) -> Answer {
        let mut buffer = self.buffer.clone();
        let run = AssertUnwindSafe(|| (self.function.run)(&self.arguments, &mut buffer));
        match catch_unwind(run) {
            Ok(Ok(results)) => Answer::new(DONE, &results, buffer),
            Ok(Err(number)) => Answer::new(number, &[], buffer),
            Err(_) => Answer::new(STOPPED, &[], buffer),
        }
    }
}

// A long argument is a position or a length in full, and `as usize` below must not cut it.
const _: () = assert!(usize::BITS == 64);

/// Arguments 0 and 1 as one number.
pub fn long(arguments: &[u32; ARGUMENTS]) -> usize {
    long_at(arguments, 0) as usize
}

/// An argument and the one behind it as one number.
pub fn long_at(arguments: &[u32; ARGUMENTS], i: usize) -> u64 {
    u64::from(arguments[i + 1]) << 32 | u64::from(arguments[i])
}

/// A number as two arguments.
pub fn halves(long: u64) -> [u32; 2] {
    [long as u32, (long >> 32) as u32]
}
