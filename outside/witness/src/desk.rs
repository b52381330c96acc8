//! The proved library at work on trials, step by step.

use crate::seen::{value, Seen};
use crate::trial::{byte_at, Memories, Trial, FULL};
use draw::aim::{self, get_long, XSP};
use draw::case::Call;
use library::{Empty, Library};
use second::record::{BANK, COUNTER, LENGTH, SR};
use std::collections::BTreeMap;
use std::ops::Range;

pub const LIBRARY: Library = Library {
    empty: Empty::Dangling,
};
/// RAM is looked through in pieces of this many bytes.
const PIECE: usize = 256;

/// A request that was offered before a step.
pub struct Asked {
    pub level: u32,
    pub taken: bool,
    /// The mask before it.
    pub mask: u32,
    /// The four bytes of the vector.
    pub vector: u32,
}

/// A step that the library did: all that a row may ask about.
pub struct Done<'a> {
    /// The record just before the instruction.
    pub before: &'a [u8],
    /// The instruction's bytes.
    pub code: &'a [u8],
    pub asked: Option<&'a Asked>,
    /// Memory just before the instruction.
    ram: &'a [u8],
    rom: &'a [u8],
}

impl Done<'_> {
    /// A byte of memory before the instruction.
    pub fn byte(&self, address: u32) -> u8 {
        byte_at(self.ram, self.rom, address)
    }

    /// The counter before the instruction, as wide as the witness keeps it.
    pub fn counter(&self) -> u32 {
        match self.asked {
            Some(asked) if asked.taken => asked.vector,
            _ => get_long(self.before, COUNTER),
        }
    }

    /// The address behind the instruction, as wide.
    pub fn next(&self) -> u32 {
        self.counter().wrapping_add(self.code.len() as u32)
    }

    /// The bytes of a long register in a record, by its code.
    pub fn place_of_long(&self, code: u8) -> Range<usize> {
        let first = aim::place_of_long(self.before, code);
        first..first + 4
    }

    /// A long register before the instruction, by its code.
    pub fn long(&self, code: u8) -> u32 {
        value(self.before, self.place_of_long(code))
    }

    /// Bytes that stand on the stack, from its top on, low byte first.
    pub fn on_stack(&self, from: u32, bytes: u32) -> u32 {
        let at = |i| u32::from(self.byte(self.long(XSP).wrapping_add(from + i)));
        (0..bytes).rev().fold(0, |high, i| high << 8 | at(i))
    }

    pub fn bank(&self) -> u8 {
        self.before[BANK] & 3
    }
}

/// What the library has after a reset from this ROM; `None` if it refuses.
pub fn reset(rom: &[u8]) -> Option<Seen> {
    let mut record = vec![0; LENGTH];
    let number = LIBRARY.reset(&mut record, &[], rom);
    (number == 0).then(|| Seen::of_record(&record, BTreeMap::new()))
}

/// The number that something was refused with, if it was.
pub type Refusal = Option<u8>;

/// The memories, and RAM once more as it was before the step.
pub struct Desk {
    ram: Vec<u8>,
    rom: Vec<u8>,
    past: Vec<u8>,
}

impl Desk {
    pub fn on(memories: &Memories) -> Desk {
        Desk {
            ram: memories.ram.bytes.clone(),
            rom: memories.rom.bytes.clone(),
            past: memories.ram.bytes.clone(),
        }
    }

    /// Does a trial, and hands over each step that is not refused, with what the
    /// library leaves. Several steps end where the counter goes on. Gives the number that
    /// it was refused with, if it was. Memory is then as before.
    pub fn work(
        &mut self,
        memories: &Memories,
        trial: &Trial,
        mut hand: impl FnMut(&Done, Seen),
    ) -> Refusal {
        for (address, byte) in trial.bytes_put() {
            self.put(address, byte);
        }
        let mut record = trial.record.clone();
        let mut written = Vec::new();
        let mut refusal = None;
        for _ in 0..trial.steps() {
            match self.step(trial.call, &mut record, &mut hand) {
                Ok(mut addresses) => written.append(&mut addresses),
                Err(number) => refusal = Some(number),
            }
            if refusal.is_some() || record[COUNTER..SR] != trial.record[COUNTER..SR] {
                break;
            }
        }
        let put = trial.bytes_put().map(|(address, _)| address);
        for address in put.chain(written) {
            self.put(address, memories.byte(address));
        }
        refusal
    }

    /// Does a step, with a request before it where the call is one, and gives the
    /// addresses that were written.
    fn step(
        &mut self,
        call: Call,
        record: &mut [u8],
        hand: &mut impl FnMut(&Done, Seen),
    ) -> Result<Vec<u32>, u8> {
        let asked = match call {
            Call::Request(level, vector) => Some(self.ask(record, level, vector)?),
            _ => None,
        };
        let pushed = asked.as_ref().map(|_| self.ram.clone());
        let before = record.to_vec();
        let code = self.code(&before);
        let answer = LIBRARY.step(record, &mut self.ram, &self.rom);
        if answer != (0, 0) {
            self.ram.copy_from_slice(&self.past);
            return Err(answer.0);
        }
        let memory = changes(&self.past, &self.ram);
        let done = Done {
            before: &before,
            code: &code,
            asked: asked.as_ref(),
            ram: pushed.as_deref().unwrap_or(&self.past),
            rom: &self.rom,
        };
        hand(&done, Seen::of_record(record, memory.clone()));
        for (&address, &byte) in &memory {
            self.past[address as usize] = byte;
        }
        Ok(memory.into_keys().collect())
    }

    /// Offers a request.
    fn ask(&mut self, record: &mut [u8], level: u32, vector: u32) -> Result<Asked, u8> {
        let mask = u32::from(aim::mask(record));
        let bytes = [0, 1, 2, 3].map(|i| byte_at(&self.ram, &self.rom, vector + i));
        match LIBRARY.request(record, &mut self.ram, &self.rom, level, vector) {
            (taken, 0, 0) => Ok(Asked {
                level,
                taken: taken == 1,
                mask,
                vector: u32::from_le_bytes(bytes),
            }),
            (_, number, _) => Err(number),
        }
    }

    /// The bytes of the instruction at the counter; none where there is none.
    fn code(&self, record: &[u8]) -> Vec<u8> {
        let at = get_long(record, COUNTER);
        let (length, _) = LIBRARY.show(&self.ram, &self.rom, at);
        let byte = |i| byte_at(&self.ram, &self.rom, at + i);
        (0..length).map(byte).collect()
    }

    fn put(&mut self, address: u32, byte: u8) {
        match address.checked_sub(FULL.rom_start()) {
            Some(place) => self.rom[place as usize] = byte,
            None => {
                for ram in [&mut self.ram, &mut self.past] {
                    if let Some(slot) = ram.get_mut(address as usize) {
                        *slot = byte;
                    }
                }
            }
        }
    }
}

/// The bytes that differ, by address.
fn changes(before: &[u8], after: &[u8]) -> BTreeMap<u32, u8> {
    let mut changes = BTreeMap::new();
    let pieces = before.chunks(PIECE).zip(after.chunks(PIECE)).enumerate();
    for (number, (old, new)) in pieces.filter(|(_, (old, new))| old != new) {
        let bytes = old.iter().zip(new).enumerate();
        for (place, (_, &byte)) in bytes.filter(|(_, (old, new))| old != new) {
            changes.insert((number * PIECE + place) as u32, byte);
        }
    }
    changes
}
