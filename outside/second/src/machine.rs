//! The state: 80 bytes of registers and the few values beside them.

use crate::flags::{Flags, Marks};
use crate::number;
use crate::record::{COUNTER, F_PRIME, LAST, LENGTH, MARKS, NESTING, OLD_LENGTH, SR, ZERO};
use crate::register::Register;
use crate::width::{gather, scatter, Width};

/// How many addresses there are: every address is taken modulo this.
pub(crate) const ADDRESSES: i64 = 1 << 24;

/// The code of XSP among the long registers.
pub(crate) const XSP: u8 = 7;
/// The code of BC among the word registers.
pub(crate) const BC: u8 = 1;

/// The bytes of all registers: a record begins with them.
const FILE: usize = COUNTER;

/// The bits of a flag register that are always 0.
const NO_FLAG: u8 = 0b0010_1000;
/// The bits of SR above the flags that are always 1, and the one always 0.
const STATUS_ONES: u32 = 0x8800;
const STATUS_ZERO: u32 = 0x0400;
/// All four marks, in a record's byte.
const MOST_MARKS: u8 = 15;

/// The state of the processor.
///
/// The registers lie in one file of 80 bytes: 16 for each of the four banks
/// (XWA, XBC, XDE, XHL, low byte first), then 16 that all banks share (XIX,
/// XIY, XIZ, XSP). A register is a window of one, two or four of these bytes,
/// so a write can change nothing but the part it names.
///
/// The other fields are open and can be given values that no valid state
/// has; such a state is refused with number 2 wherever it is used.
#[derive(Clone, Debug, PartialEq, Eq)]
pub struct Machine {
    file: [u8; FILE],
    /// The program counter, below 2^24.
    pub counter: u32,
    /// The number of the current bank, 0 to 3.
    pub bank: u8,
    /// The interrupt level, 0 to 7.
    pub level: u8,
    /// The flags F: S 7, Z 6, H 4, V 2, N 1, C 0.
    pub f: u8,
    /// The spare flags F'.
    pub f_prime: u8,
    /// Which flags of F are undefined. Their bits are 0.
    pub marks: Marks,
    /// Which flags of F' are undefined. Their bits are 0.
    pub marks_prime: Marks,
    /// The nesting count: requests taken, less RETIs done. It goes round at
    /// its 16 bits.
    pub nesting: u16,
}

impl Machine {
    /// The state with every register, the counter, the bank, the level, both
    /// flag registers and the nesting count zero, and no mark.
    pub fn zero() -> Machine {
        Machine {
            file: [0; FILE],
            counter: 0,
            bank: 0,
            level: 0,
            f: 0,
            f_prime: 0,
            marks: Marks::default(),
            marks_prime: Marks::default(),
            nesting: 0,
        }
    }

    /// Whether this is a state the processor can be in.
    pub fn valid(&self) -> bool {
        i64::from(self.counter) < ADDRESSES
            && self.bank <= 3
            && self.level <= 7
            && self.f & (NO_FLAG | self.marks.flags()) == 0
            && self.f_prime & (NO_FLAG | self.marks_prime.flags()) == 0
    }

    /// The state saved in a record ([`crate::record`] says where everything
    /// stands). Any other length, or any bit that no valid state has, is
    /// refused with 2.
    pub fn from_record(record: &[u8]) -> Result<Machine, u8> {
        if record.len() != LENGTH || record[LAST] != 0 || record[MARKS] > MOST_MARKS {
            return Err(number::NOT_VALID);
        }
        let mut machine = Machine::from_old_record(&record[..OLD_LENGTH])?;
        machine.marks = Marks::from_bits(record[MARKS] % 4);
        machine.marks_prime = Marks::from_bits(record[MARKS] / 4);
        machine.nesting = gather(&record[NESTING..MARKS]) as u16;
        machine.if_valid()
    }

    /// The state saved in an old record, which has no marks and no nesting
    /// count: these are 0. What is refused is refused with 2 here, too.
    pub fn from_old_record(record: &[u8]) -> Result<Machine, u8> {
        if record.len() != OLD_LENGTH || record[ZERO] != 0 {
            return Err(number::NOT_VALID);
        }
        let status = gather(&record[SR..F_PRIME]);
        if status & STATUS_ONES != STATUS_ONES || status & STATUS_ZERO != 0 {
            return Err(number::NOT_VALID);
        }
        let mut machine = Machine::zero();
        machine.file.copy_from_slice(&record[..FILE]);
        machine.counter = gather(&record[COUNTER..SR]);
        machine.f = (status % 256) as u8;
        machine.set_upper_status(status);
        machine.f_prime = record[F_PRIME];
        machine.if_valid()
    }

    fn if_valid(self) -> Result<Machine, u8> {
        if self.valid() {
            Ok(self)
        } else {
            Err(number::NOT_VALID)
        }
    }

    /// The record of this state; 2 if the state is not valid.
    pub fn to_record(&self) -> Result<[u8; LENGTH], u8> {
        if !self.valid() {
            return Err(number::NOT_VALID);
        }
        let mut record = [0; LENGTH];
        record[..FILE].copy_from_slice(&self.file);
        scatter(self.counter, &mut record[COUNTER..SR]);
        scatter(self.status(), &mut record[SR..F_PRIME]);
        record[F_PRIME] = self.f_prime;
        scatter(u32::from(self.nesting), &mut record[NESTING..MARKS]);
        record[MARKS] = self.marks.to_bits() + 4 * self.marks_prime.to_bits();
        Ok(record)
    }

    /// SR: the flags below, the bank from bit 8, bit 11 one, the level from
    /// bit 12, bit 15 one.
    pub fn status(&self) -> u32 {
        STATUS_ONES
            + u32::from(self.f)
            + u32::from(self.bank % 4) * 256
            + u32::from(self.level % 8) * 4096
    }

    /// Takes the bank and the level from SR. Its other upper bits have one
    /// value each, whatever is tried.
    fn set_upper_status(&mut self, status: u32) {
        self.bank = (status / 256 % 4) as u8;
        self.level = (status / 4096 % 8) as u8;
    }

    /// Takes SR as it was popped. Its flags count as known.
    pub(crate) fn set_status(&mut self, status: u32) {
        let byte = (status % 256) as u8;
        self.set_flags(Flags::from_byte(byte, Marks::default()));
        self.set_upper_status(status);
    }

    /// What the register of this width and code (0 to 7) holds, in the
    /// current bank where it is one of the bank's.
    pub fn get(&self, width: Width, code: u8) -> u32 {
        self.read(width, Register::Short(code))
    }

    /// Writes the register of this width and code, and nothing beside it. A
    /// value too great for the register loses its high bytes.
    pub fn set(&mut self, width: Width, code: u8, value: u32) {
        self.write(width, Register::Short(code), value);
    }

    /// As [`Machine::get`], however the register is named.
    pub(crate) fn read(&self, width: Width, register: Register) -> u32 {
        gather(&self.file[register.place(width, self.bank)])
    }

    /// As [`Machine::set`], however the register is named.
    pub(crate) fn write(&mut self, width: Width, register: Register, value: u32) {
        scatter(value, &mut self.file[register.place(width, self.bank)]);
    }

    /// Moves a register by a signed amount; it goes round at its own width.
    pub(crate) fn shove(&mut self, width: Width, code: u8, by: i64) {
        let moved = i64::from(self.get(width, code)) + by;
        self.set(width, code, width.round(moved));
    }

    /// F with its marks.
    pub(crate) fn flags(&self) -> Flags {
        Flags::from_byte(self.f, self.marks)
    }

    /// Writes F and its marks: whoever gives all six flags says of H and V
    /// whether they are defined.
    pub(crate) fn set_flags(&mut self, flags: Flags) {
        self.f = flags.to_byte();
        self.marks = flags.marks();
    }
}

/// Any number, brought round into the addresses.
pub(crate) fn address(number: i64) -> u32 {
    number.rem_euclid(ADDRESSES) as u32
}
