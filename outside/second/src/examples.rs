//! Worked examples as data: the books' execution examples ([`book`]), the
//! cases P1 to P12 of document 01 ([`cases`]), and more of our own, worked by
//! hand from document 01 and the requests that have landed, for the codes that
//! those leave out ([`hand`]); those for the marks of K6, for the interrupts of
//! K8, for the bank registers of K1 and for the multiply, divide and modulo steps
//! of K7 have tables to themselves ([`marks`], [`interrupts`], [`banks`],
//! [`feed`]). They stand in seven tables of plain text, to be held beside the
//! books.
//!
//! They are public so that any implementation that speaks in records and
//! memories can be run over them: [`Example::start`] gives what to begin
//! with, [`Example::end`] all that must be found after [`Example::steps`]
//! steps, and after the request that comes before them where there is one
//! ([`Example::request`]). Each of these is done, but for the last where the
//! example says that it is refused ([`Example::refused`]). An example names
//! everything that changes, so both are complete, byte for byte.
//!
//! What an example does not give is zero. RAM has its full 65,536 bytes and
//! holds the code at [`Example::at`]; ROM is empty, or of zeros where an example
//! gives it a length. Addresses that the book puts beyond RAM are cut to 16
//! bits. F after an execution example is worked out by hand from the flag lines
//! of the same page, where the example itself does not state it; the counter
//! likewise is the address after the code.
//!
//! Nothing here uses the interpreter; where things stand in a record
//! ([`crate::record`]) is all that they share.

mod table;

use crate::flags::Marks;
use crate::record::{self, BANK, COUNTER, F, F_PRIME, LENGTH, MARKS, NESTING, SR};

/// The books' execution examples.
pub fn book() -> Vec<Example> {
    table::read("book.txt", include_str!("examples/book.txt"))
}

/// The cases P1 to P12 of document 01.
pub fn cases() -> Vec<Example> {
    table::read("cases.txt", include_str!("examples/cases.txt"))
}

/// Examples worked by hand.
pub fn hand() -> Vec<Example> {
    table::read("hand.txt", include_str!("examples/hand.txt"))
}

/// Examples for the marks of K6, worked by hand.
pub fn marks() -> Vec<Example> {
    table::read("marks.txt", include_str!("examples/marks.txt"))
}

/// Examples for the interrupts of K8, worked by hand.
pub fn interrupts() -> Vec<Example> {
    table::read("interrupts.txt", include_str!("examples/interrupts.txt"))
}

/// Examples for the bank registers of K1, worked by hand.
pub fn banks() -> Vec<Example> {
    table::read("banks.txt", include_str!("examples/banks.txt"))
}

/// Examples for the multiply, divide and modulo steps of K7, worked by hand.
pub fn feed() -> Vec<Example> {
    table::read("feed.txt", include_str!("examples/feed.txt"))
}

/// Every example: the books', then the cases, then those worked by hand, the
/// marks, the interrupts, the bank registers and what K7 adds last.
pub fn all() -> Vec<Example> {
    let of_requests = [marks(), interrupts(), banks(), feed()].concat();
    [book(), cases(), hand(), of_requests].concat()
}

/// One thing that a state or RAM holds.
#[derive(Clone, Copy, Debug, PartialEq, Eq)]
pub enum Part {
    /// A register by its book name, of bank 0 where it has a bank and the name
    /// no bank's number.
    Register(&'static str, u32),
    /// The whole flag register F.
    F(u8),
    /// The whole flag register F'.
    SpareF(u8),
    /// Both marks of F.
    Marks(Marks),
    /// Both marks of F'.
    SpareMarks(Marks),
    /// The current bank's number.
    Bank(u8),
    /// The interrupt level.
    Level(u8),
    /// The nesting count.
    Nesting(u16),
    /// The program counter.
    Counter(u32),
    /// The byte of RAM at an address.
    Memory(u16, u8),
    /// How many zero bytes ROM has.
    Rom(u16),
}

/// A request, and whether it is taken.
#[derive(Clone, Copy, Debug, PartialEq, Eq)]
pub struct Request {
    /// The level.
    pub level: u32,
    /// The address of the vector.
    pub vector: u32,
    /// Whether it is taken.
    pub taken: bool,
}

/// How a refused step ends, or a refused request.
#[derive(Clone, Copy, Debug, PartialEq, Eq)]
pub struct Refused {
    /// Its number.
    pub number: u8,
    /// The address that goes with it, or 0.
    pub at: u32,
}

/// A worked example.
#[derive(Clone, Debug)]
pub struct Example {
    /// The case's name, or the instruction as the book writes it.
    pub name: &'static str,
    /// The document and line it is taken from.
    pub source: &'static str,
    /// What is offered before the first step, if anything is.
    pub request: Option<Request>,
    /// The address of the first code byte.
    pub at: u16,
    /// The code bytes.
    pub code: Vec<u8>,
    /// What is given before.
    pub before: Vec<Part>,
    /// How many steps are asked for.
    pub steps: u32,
    /// How the last of them is refused, if it is; the request, where no step
    /// is asked for.
    pub refused: Option<Refused>,
    /// What is different or stated after.
    pub after: Vec<Part>,
}

/// A saved state and the two memories.
#[derive(Clone, Debug, PartialEq, Eq)]
pub struct Scene {
    /// The record.
    pub record: [u8; LENGTH],
    /// RAM, 65,536 bytes.
    pub ram: Vec<u8>,
    /// ROM, empty in most examples.
    pub rom: Vec<u8>,
}

impl Example {
    /// What to begin with.
    pub fn start(&self) -> Scene {
        let mut scene = Scene {
            record: [0; LENGTH],
            ram: vec![0; 65_536],
            rom: Vec::new(),
        };
        // Bits 11 and 15 of SR are always one.
        scene.record[BANK] = 0x88;
        let first = usize::from(self.at);
        scene.ram[first..first + self.code.len()].copy_from_slice(&self.code);
        scene.put(Part::Counter(u32::from(self.at)));
        scene.put_all(&self.before);
        scene
    }

    /// What must be found after the steps.
    pub fn end(&self) -> Scene {
        let mut scene = self.start();
        scene.put_all(&self.after);
        scene
    }

    /// What a run of the steps answers: how many were done, the number and
    /// the address.
    pub fn answer(&self) -> (u32, u8, u32) {
        match self.refused {
            Some(Refused { number, at }) if self.steps > 0 => (self.steps - 1, number, at),
            _ => (self.steps, 0, 0),
        }
    }

    /// What the request answers, where there is one: whether it was taken, the
    /// number and the address.
    pub fn request_answer(&self) -> Option<(bool, u8, u32)> {
        let taken = self.request?.taken;
        Some(match self.refused {
            Some(Refused { number, at }) if self.steps == 0 => (taken, number, at),
            _ => (taken, 0, 0),
        })
    }
}

impl Scene {
    fn put_all(&mut self, parts: &[Part]) {
        for &part in parts {
            self.put(part);
        }
    }

    fn put(&mut self, part: Part) {
        match part {
            Part::Register(name, value) => {
                let place = record::named(name).expect(name);
                let bytes = value.to_le_bytes();
                let size = place.len();
                self.record[place].copy_from_slice(&bytes[..size]);
            }
            Part::Counter(value) => self.record[COUNTER..SR].copy_from_slice(&value.to_le_bytes()),
            Part::F(value) => self.record[F] = value,
            Part::Bank(value) => self.record[BANK] = self.record[BANK] & 0xFC | value,
            Part::Level(value) => self.record[BANK] = self.record[BANK] & 0x8F | value << 4,
            Part::Nesting(value) => {
                self.record[NESTING..MARKS].copy_from_slice(&value.to_le_bytes())
            }
            Part::SpareF(value) => self.record[F_PRIME] = value,
            Part::Marks(marks) => self.record[MARKS] = self.record[MARKS] & 0xFC | marks.to_bits(),
            Part::SpareMarks(marks) => {
                self.record[MARKS] = self.record[MARKS] & 0xF3 | marks.to_bits() << 2
            }
            Part::Memory(address, value) => self.ram[usize::from(address)] = value,
            Part::Rom(length) => self.rom = vec![0; usize::from(length)],
        }
    }
}
