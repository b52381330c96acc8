//! The two ways in which code names a register.
//!
//! 01's forms have a code from 0 to 7 for it: the current bank, and what all
//! banks share. K1's have a byte for it, and by that every part of every
//! register is named (003, 3.3 and 3.4). 000's picture of these bytes is lost,
//! so they are as was decided for K1: the high hex digit tells which sixteen
//! bytes of registers are meant, and the low one counts in them, from the lowest
//! byte of XWA, or of XIX, upwards.

use crate::record::{self, BANK_SIZE, SHARED};
use crate::width::Width;
use std::ops::Range;

/// A register, as code names it.
#[derive(Clone, Copy, Debug, PartialEq, Eq)]
pub(crate) enum Register {
    /// By 01's code from 0 to 7.
    Short(u8),
    /// By K1's byte: among which sixteen, and at which of them it begins.
    Among(Sixteen, u8),
}

/// Sixteen bytes of registers.
#[derive(Clone, Copy, Debug, PartialEq, Eq)]
pub(crate) enum Sixteen {
    /// The bank of this number.
    Bank(u8),
    /// The bank before the current one: the names with a dash.
    Previous,
    /// The current bank.
    Current,
    /// XIX, XIY, XIZ and XSP.
    Shared,
}

impl Register {
    /// The register of this width that K1's byte names, if there is one: a word
    /// begins at every second byte, a long at every fourth.
    pub fn from_byte(byte: u8, width: Width) -> Option<Register> {
        let sixteen = match byte / 16 {
            number @ 0..=3 => Sixteen::Bank(number),
            0xD => Sixteen::Previous,
            0xE => Sixteen::Current,
            0xF => Sixteen::Shared,
            _ => return None,
        };
        let begin = byte % 16;
        let begins_one = usize::from(begin) % width.bytes() == 0;
        begins_one.then_some(Register::Among(sixteen, begin))
    }

    /// The register whose lower half this one of a width is, with its own
    /// width, if there is one (000's tables of RR and rr). Among 01's bytes it
    /// is A, C, E and L that are lower halves: 1, 3, 5 and 7.
    pub fn whole(self, half: Width) -> Option<(Width, Register)> {
        let width = match half {
            Width::Byte => Width::Word,
            Width::Word => Width::Long,
            Width::Long => return None,
        };
        let (is_lower, whole) = match self {
            Register::Short(code) if half == Width::Byte => {
                (code % 2 == 1, Register::Short(code / 2))
            }
            Register::Short(_) => (true, self),
            Register::Among(_, begin) => (usize::from(begin) % width.bytes() == 0, self),
        };
        is_lower.then_some((width, whole))
    }

    /// Its bytes among those of all registers, while this bank is the current
    /// one.
    pub fn place(self, width: Width, bank: u8) -> Range<usize> {
        match self {
            Register::Short(code) => record::register(width, code, bank),
            Register::Among(sixteen, begin) => {
                let first = sixteen.first(bank) + usize::from(begin);
                first..first + width.bytes()
            }
        }
    }
}

impl Sixteen {
    /// Where they begin, while this bank is the current one.
    fn first(self, current: u8) -> usize {
        let of_bank = |number: u8| BANK_SIZE * usize::from(number % 4);
        match self {
            Sixteen::Bank(number) => of_bank(number),
            // Three more is one less, modulo 4.
            Sixteen::Previous => of_bank(current % 4 + 3),
            Sixteen::Current => of_bank(current),
            Sixteen::Shared => SHARED,
        }
    }
}
