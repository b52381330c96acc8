//! Byte operands of which none is left out; the rest of the state is drawn.

use crate::codes;
use crate::trial::Trial;
use draw::chance::Chance;
use second::record::{self, BANK, F};
use second::Width;

/// A name, how many trials there are, the trial of a number below that, and whether
/// they are left to a whole run.
pub struct Every {
    pub name: &'static str,
    pub count: u32,
    pub trial: fn(&mut Chance, u32) -> Trial,
    pub long: bool,
}

pub const EVERY: [Every; 4] = [
    Every {
        name: "every two bytes and carry, ADD to CP",
        count: 1 << 20,
        trial: operation,
        long: false,
    },
    Every {
        name: "every byte and carry, INC, DEC and shifts",
        count: 80 << 9,
        trial: change,
        long: false,
    },
    Every {
        name: "every two bytes, MUL and MULS",
        count: 1 << 17,
        trial: product,
        long: false,
    },
    Every {
        name: "every word by every byte, DIV and DIVS",
        count: 1 << 25,
        trial: quotient,
        long: true,
    },
];

const W: u8 = 0;
const A: u8 = 1;
const BC: u8 = 1;
const C: u8 = 3;
/// The first byte of a register form with A.
const WITH_A: u8 = 0xC9;

fn set(trial: &mut Trial, width: Width, code: u8, value: u32) {
    let place = record::register(width, code, trial.record[BANK] & 3);
    let bytes = value.to_le_bytes();
    trial.record[place].copy_from_slice(&bytes[..width.bytes()]);
}

fn set_carry(trial: &mut Trial, carry: u32) {
    trial.record[F] = trial.record[F] & 0xFE | carry as u8 & 1;
}

/// W with A: eight bits each, the carry, and which of the eight operations.
fn operation(chance: &mut Chance, number: u32) -> Trial {
    let which = (number >> 17) as u8;
    let mut trial = codes::aimed(chance, vec![WITH_A, 0x80 | which << 4 | W]);
    set(&mut trial, Width::Byte, W, number);
    set(&mut trial, Width::Byte, A, number >> 8);
    set_carry(&mut trial, number >> 16);
    trial
}

/// A: eight bits, the carry, and which of sixteen counts and 64 shifts.
fn change(chance: &mut Chance, number: u32) -> Trial {
    let which = (number >> 9) as u8;
    let code = match which.checked_sub(16) {
        None => vec![WITH_A, 0x60 | which],
        Some(shift) => vec![WITH_A, 0xEC + shift / 16, shift % 16],
    };
    let mut trial = codes::aimed(chance, code);
    set(&mut trial, Width::Byte, A, number);
    set_carry(&mut trial, number >> 8);
    trial
}

/// C by A to BC.
fn product(chance: &mut Chance, number: u32) -> Trial {
    by_a(chance, 0x40, Width::Byte, C, number)
}

/// BC by A.
fn quotient(chance: &mut Chance, number: u32) -> Trial {
    by_a(chance, 0x50, Width::Word, BC, number)
}

/// What is multiplied or divided, as many bits as it has; A, eight; and whether with
/// a sign. In both BC is named by C.
fn by_a(chance: &mut Chance, second: u8, width: Width, code: u8, number: u32) -> Trial {
    let bits = 8 * width.bytes();
    let signed = (number >> (bits + 8)) as u8;
    let mut trial = codes::aimed(chance, vec![WITH_A, second | signed << 3 | C]);
    set(&mut trial, width, code, number);
    set(&mut trial, Width::Byte, A, number >> bits);
    trial
}
