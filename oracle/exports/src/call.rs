//! Calls, and the program that makes them. The exports are built for x86-64, and a judge for the machine that it runs on, so
//! none links them: `calls.c` does, which `tools/run` runs on any processor. It is asked through pipes, in the frames that
//! it describes. Where it cannot be started, or ends before its answer does, the judge stops.

use std::env;
use std::io::{self, BufWriter, Read, Write};
use std::process::{Child, Command, Stdio};
use std::sync::{LazyLock, Mutex};

/// The variable with the command that starts it, words with spaces between them.
const COMMAND: &str = "HBC_EXPORTS";

/// As `calls.c` numbers them.
#[derive(Clone, Copy)]
pub enum Export {
    Finalize = 1,
    Build,
    PatchById,
    PatchByValue,
    PatchInPass,
    ReadPo,
    WritePo,
    Why,
}

/// A call, but for its lent buffers. What an export does not take is 0 or empty.
pub struct Call<'a> {
    pub export: Export,
    pub layout: u8,
    pub mode: u8,
    /// The version, or the id.
    pub number: u32,
    /// In the order of hbc.h.
    pub inputs: [&'a [u8]; 4],
}

/// The output, and what is lent for work: the text, the ends, the words. An index is such words.
pub type Lent<'a> = [&'a mut [u8]; 4];

impl Call<'_> {
    /// With an output alone.
    pub fn make(&self, out: &mut [u8]) -> u64 {
        self.make_in(&mut [out, &mut [], &mut [], &mut []])
    }

    pub fn make_in(&self, lent: &mut Lent) -> u64 {
        static PROGRAM: LazyLock<Mutex<Child>> = LazyLock::new(|| Mutex::new(start()));
        let mut program = PROGRAM.lock().unwrap();
        self.ask(&mut program, lent).unwrap_or_else(|error| {
            let ended =
                program.wait().map_or_else(|error| error.to_string(), |end| end.to_string());
            panic!("the program of {COMMAND} does not answer: {error}; it ended with {ended}")
        })
    }

    /// The whole call is written, and then the whole answer read: the program does it the other way round.
    fn ask(&self, program: &mut Child, lent: &mut Lent) -> io::Result<u64> {
        let mut calls = BufWriter::new(program.stdin.as_mut().unwrap());
        self.write(&mut calls, lent)?;
        calls.flush()?;

        let answers = program.stdout.as_mut().unwrap();
        let mut answer = [0; 8];
        answers.read_exact(&mut answer)?;
        lent.iter_mut().try_for_each(|part| answers.read_exact(part))?;
        Ok(u64::from_le_bytes(answer))
    }

    /// The frame of the call.
    pub fn write(&self, to: &mut impl Write, lent: &Lent) -> io::Result<()> {
        to.write_all(&[self.export as u8, self.layout, self.mode, 0])?;
        to.write_all(&self.number.to_le_bytes())?;
        let lengths = self.inputs.iter().map(|part| part.len());
        for length in lengths.chain(lent.iter().map(|part| part.len())) {
            to.write_all(&(length as u64).to_le_bytes())?;
        }
        self.inputs.iter().try_for_each(|part| to.write_all(part))?;
        lent.iter().try_for_each(|part| to.write_all(part))
    }
}

fn start() -> Child {
    let command = env::var(COMMAND).unwrap_or_default();
    let mut words = command.split_whitespace();
    let Some(program) = words.next() else {
        panic!("{COMMAND} names no program that makes the calls: oracle/README.md")
    };
    let started =
        Command::new(program).args(words).stdin(Stdio::piped()).stdout(Stdio::piped()).spawn();
    started.unwrap_or_else(|error| {
        panic!("the program of {COMMAND} does not start: {command}: {error}")
    })
}
