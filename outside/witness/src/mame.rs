//! The witness: an emulator that runs as a program of its own. It is started with
//! a script of ours, `serve.lua`, and asked through its standard input and output.
//!
//! A message to it is a letter, a length in four bytes, and so many bytes. Numbers
//! are low byte first. A state is the twenty registers in a record's order, the
//! counter, SR and F', four bytes each.
//!
//! * `r`, how it was after its reset: the answer is the board's ROM and what was there.
//! * `s`, steps of trials: RAM, ROM, in four bytes how many trials there are, and
//!   the trials. A trial is a state; then in a byte each how many steps, which source
//!   of interrupts asks (255 for none), with which level, and how many stretches of
//!   bytes are put over memory; and these, an address in four bytes, a length in one,
//!   and the bytes. Each step is answered with what is there after it.
//! * `l`, a loop to be timed: ROM, the board's RAM and a state. No answer.
//! * `t`, some time of that loop: the answer is the seconds it took, the board's RAM
//!   and what is there after it.
//!
//! What is there: the registers, by name and not by bank, the counter, SR, F', the
//! bank that is in use and whether the core has halted, four bytes each; how many
//! bytes were stored, in two; and these, in four bytes each, of which the lowest is
//! what was stored and the others are the address.

use crate::seen::Seen;
use crate::trial::{Memories, Trial, MOST};
use draw::case::Call;
use second::record::{BANK_SIZE, COUNTER, F_PRIME, SHARED, SR};
use std::collections::BTreeMap;
use std::io::{self, BufRead, BufReader, Read, Write};
use std::path::Path;
use std::process::{Child, ChildStdin, ChildStdout, Command, Stdio};

/// What its first line begins with; its version stands behind.
const READY: &[u8] = b"ready ";

/// Where the board's RAM begins, and how long it is.
pub const BOARD_RAM: usize = 0x4000;
pub const BOARD_LENGTH: usize = 0x3000;

/// The low byte of each source's vector address, FFFF00H and up, as the witness was
/// seen to have them. The last is of the line that no mask holds off.
const VECTORS: [u8; 23] = [
    0x28, 0x70, 0x2C, 0x30, 0x34, 0x38, 0x40, 0x44, 0x48, 0x4C, 0x50, 0x54, 0x58, 0x5C, 0x60, 0x64,
    0x68, 0x6C, 0x74, 0x78, 0x7C, 0x80, 0x20,
];
const NO_SOURCE: u8 = 255;
/// The level of that line, which no other source can have.
pub const HIGHEST_LEVEL: u32 = 7;

/// The vector addresses of a level.
pub fn vectors(level: u32) -> Vec<u32> {
    let (last, others) = VECTORS.split_last().expect("some sources");
    let lows = if level == HIGHEST_LEVEL {
        std::slice::from_ref(last)
    } else {
        others
    };
    lows.iter().map(|&low| vector(low)).collect()
}

fn vector(low: u8) -> u32 {
    0xFF_FF00 + u32::from(low)
}

fn source(address: u32) -> u8 {
    let found = VECTORS.iter().position(|&low| vector(low) == address);
    found.map_or(NO_SOURCE, |source| source as u8)
}

/// What the witness has after a step, and what it stored, in its order.
pub struct Answer {
    pub seen: Seen,
    pub stored: Vec<(u32, u8)>,
}

/// A stretch of a loop: how long it took, and what is there afterwards.
pub struct Stretch {
    pub seconds: f64,
    pub ram: Vec<u8>,
    pub seen: Seen,
}

pub struct Mame {
    pub version: String,
    child: Child,
    to: ChildStdin,
    from: BufReader<ChildStdout>,
}

impl Mame {
    /// Starts it by what stands in this folder, and waits until it is ready.
    pub fn start(folder: &Path) -> io::Result<Mame> {
        let mut child = Command::new(folder.join("emulator"))
            .stdin(Stdio::piped())
            .stdout(Stdio::piped())
            .spawn()?;
        let to = child.stdin.take().expect("a pipe");
        let mut from = BufReader::new(child.stdout.take().expect("a pipe"));
        let mut line = Vec::new();
        while !line.starts_with(READY) {
            line.clear();
            if from.read_until(b'\n', &mut line)? == 0 {
                return Err(crate::trouble("the emulator ended before it was ready"));
            }
        }
        let version = String::from_utf8_lossy(&line[READY.len()..]);
        Ok(Mame {
            version: version.trim().to_string(),
            child,
            to,
            from,
        })
    }

    fn say(&mut self, kind: u8, message: &[u8]) -> io::Result<()> {
        self.to.write_all(&[kind])?;
        self.to.write_all(&(message.len() as u32).to_le_bytes())?;
        self.to.write_all(message)?;
        self.to.flush()
    }

    /// The board's ROM, and how the witness was after its reset.
    pub fn reset(&mut self) -> io::Result<(Vec<u8>, Seen)> {
        self.say(b'r', &[])?;
        let mut rom = vec![0; MOST];
        self.from.read_exact(&mut rom)?;
        Ok((rom, self.answer()?.seen))
    }

    /// Hands trials over, each with how many steps it has. The witness does them
    /// meanwhile.
    pub fn ask<'a>(
        &mut self,
        memories: &Memories,
        trials: impl ExactSizeIterator<Item = (&'a Trial, usize)>,
    ) -> io::Result<()> {
        let mut message = Vec::new();
        message.extend_from_slice(&memories.ram.bytes);
        message.extend_from_slice(&memories.rom.bytes);
        message.extend_from_slice(&(trials.len() as u32).to_le_bytes());
        for (trial, steps) in trials {
            lay(&mut message, trial, steps);
        }
        self.say(b's', &message)
    }

    /// The answer for the next step.
    pub fn answer(&mut self) -> io::Result<Answer> {
        let mut by_name = [0; COUNTER];
        self.from.read_exact(&mut by_name)?;
        let mut longs = [0; 5];
        for long in &mut longs {
            *long = self.long()?;
        }
        let mut count = [0; 2];
        self.from.read_exact(&mut count)?;
        let mut stored = Vec::new();
        for _ in 0..u16::from_le_bytes(count) {
            let one = self.long()?;
            stored.push((one >> 8, one as u8));
        }
        let [counter, sr, spare, bank, halted] = longs;
        if halted != 0 {
            return Err(crate::trouble("the emulator's core has halted"));
        }
        let seen = Seen {
            registers: by_bank(&by_name),
            counter,
            sr,
            spare,
            bank,
            memory: BTreeMap::new(),
        };
        Ok(Answer { seen, stored })
    }

    fn long(&mut self) -> io::Result<u32> {
        let mut bytes = [0; 4];
        self.from.read_exact(&mut bytes)?;
        Ok(u32::from_le_bytes(bytes))
    }

    /// Lays a loop into the board's own memories.
    pub fn lay(&mut self, record: &[u8], ram: &[u8], rom: &[u8]) -> io::Result<()> {
        let mut message = rom.to_vec();
        message.extend_from_slice(ram);
        lay_state(&mut message, record);
        self.say(b'l', &message)
    }

    /// Lets the loop run for some time.
    pub fn stretch(&mut self) -> io::Result<Stretch> {
        self.say(b't', &[])?;
        let mut seconds = [0; 8];
        self.from.read_exact(&mut seconds)?;
        let mut ram = vec![0; BOARD_LENGTH];
        self.from.read_exact(&mut ram)?;
        Ok(Stretch {
            seconds: f64::from_le_bytes(seconds),
            ram,
            seen: self.answer()?.seen,
        })
    }

    /// Lets it end.
    pub fn end(mut self) -> io::Result<()> {
        drop(self.to);
        self.child.wait().map(|_| ())
    }
}

fn lay_state(message: &mut Vec<u8>, record: &[u8]) {
    let sr = [record[SR], record[SR + 1], 0, 0];
    message.extend_from_slice(&record[..SR]);
    message.extend_from_slice(&sr);
    message.extend_from_slice(&[record[F_PRIME], 0, 0, 0]);
}

fn lay(message: &mut Vec<u8>, trial: &Trial, steps: usize) {
    lay_state(message, &trial.record);
    let (source, level) = match trial.call {
        Call::Request(level, vector) => (source(vector), level as u8),
        _ => (NO_SOURCE, 0),
    };
    message.extend_from_slice(&[steps as u8, source, level, trial.puts.len() as u8]);
    for (address, bytes) in &trial.puts {
        message.extend_from_slice(&address.to_le_bytes());
        message.push(bytes.len() as u8);
        message.extend_from_slice(bytes);
    }
}

/// The witness has XWA of every bank, then XBC of every bank and so on.
fn by_bank(by_name: &[u8; COUNTER]) -> [u8; COUNTER] {
    let mut registers = *by_name;
    for place in (0..SHARED).step_by(4) {
        let (bank, name) = (place / BANK_SIZE, place % BANK_SIZE / 4);
        let from = BANK_SIZE * name + 4 * bank;
        registers[place..place + 4].copy_from_slice(&by_name[from..from + 4]);
    }
    registers
}
