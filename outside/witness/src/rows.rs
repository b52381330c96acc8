//! Where the witness parts from the book: one table.
//!
//! A row says in which bits the witness has something else than the book says, and
//! no more: these are turned over in what the library leaves. So a row explains no
//! wrong answer of the library away, and with it every bit is still compared. A
//! number behind 000 or 003 is a line of that book's text.

use crate::desk::Done;
use crate::operands::{compare_pointer, division, modulo, register_form, Division, Modulo};
use crate::seen::{value, Seen, H, V};
use second::record::F;
use std::ops::Range;

/// The bits in which the witness parts from the book after a step.
#[derive(Default)]
pub struct Apart {
    pub sr: u32,
    pub counter: u32,
    /// A register, by its bytes in a record.
    pub register: Option<(Range<usize>, u32)>,
    /// A byte of memory, by its address.
    pub memory: Option<(u32, u8)>,
}

impl Apart {
    fn sr(bits: u32) -> Apart {
        Apart {
            sr: bits,
            ..Apart::default()
        }
    }

    /// A register that has one value in place of the other.
    pub fn register(place: Range<usize>, one: u32, other: u32) -> Apart {
        Apart {
            register: Some((place, one ^ other)),
            ..Apart::default()
        }
    }

    /// Turns these bits over; whether there are any.
    pub fn turn_over(self, done: &Done, seen: &mut Seen) -> bool {
        seen.sr ^= self.sr;
        seen.counter ^= self.counter;
        let mut any = self.sr | self.counter != 0;
        if let Some((place, bits)) = self.register {
            let turned = seen.registers[place].iter_mut().zip(bits.to_le_bytes());
            turned.for_each(|(byte, bits)| *byte ^= bits);
            any |= bits != 0;
        }
        if let Some((address, bits)) = self.memory {
            let before = done.byte(address);
            let left = *seen.memory.get(&address).unwrap_or(&before) ^ bits;
            seen.memory.insert(address, left);
            seen.memory
                .retain(|&at, &mut byte| at != address || byte != before);
            any |= bits != 0;
        }
        any
    }
}

/// What a row says of a step. It is told what the library leaves too, to know
/// whether a jump was made and what a result is.
pub type Says = fn(&Done, &Seen) -> Apart;

pub struct Row {
    pub code: &'static str,
    /// What the book says, and where.
    pub book: &'static str,
    /// What the witness does instead.
    pub witness: &'static str,
    pub says: Says,
}

pub const ROWS: &[Row] = &[
    Row {
        code: "INCF, DECF",
        book: "the bank goes round in four (01, the listed codes; 003, 306), and bit 10 of SR stays 0 (003, 185)",
        witness: "bits 8 to 10 of SR go round in eight; the registers used, in four",
        says: bank_of_eight,
    },
    Row {
        code: "LDF 4 to 7",
        book: "sets the low two bits alone (02, K2), and bit 10 of SR stays 0 (003, 185)",
        witness: "SR has all three bits; the registers used are those of the low two",
        says: bank_loaded_whole,
    },
    Row {
        code: "POP F",
        book: "bits 5 and 3 are 0 (01, the listed codes)",
        witness: "bits 5 and 3 as they were popped",
        says: flags_as_popped,
    },
    Row {
        code: "POP SR, RETI",
        book: "bits 15 and 11 stay 1, bits 10, 5 and 3 stay 0 (02, K8)",
        witness: "these bits as they were popped",
        says: status_as_popped,
    },
    Row {
        code: "CCF, ZCF",
        book: "H is undefined (000, 3303 and 3341); 0 is the house's (01, flags)",
        witness: "H is kept",
        says: half_carry_kept,
    },
    Row {
        code: "SLA SRA SLL SRL of longs",
        book: "V is undefined (000, 4491, 4536, 4579 and 4631); 0 is the house's (01, flags)",
        witness: "V is the parity of all 32 bits",
        says: parity_of_long,
    },
    Row {
        code: "CPI CPIR CPD CPDR",
        book: "H is the borrow (000, 1419, 1461, 1506 and 1548; 01, flags)",
        witness: "H is 0",
        says: no_borrow,
    },
    Row {
        code: "RET, RETI, a request",
        book: "the counter is the low 24 bits (01, the listed codes; 02, K8)",
        witness: "the counter has all 32 bits",
        says: counter_whole,
    },
    Row {
        code: "all, past FFFFFFH or below 0",
        book: "the counter is taken modulo 2^24 (01, the machine's state)",
        witness: "the counter steps round at 32 bits, and a call pushes these",
        says: counter_of_32_bits,
    },
    Row {
        code: "DIV, DIVS by 0",
        book: "V is 1 and no value is given (000, 2334 and 2449), so the destination is kept (02, K7)",
        witness: "V is 1; the low half is the old high half with every bit turned over, the high half the old low half, or all ones for DIVS of a negative dividend",
        says: divided_by_zero,
    },
    Row {
        code: "DIV, the quotient does not fit",
        book: "V is 1 and no value is given (000, 2334), so the destination is kept (02, K7)",
        witness: "V is 1; the low bits of the quotient, and the remainder; but of a word x by a byte y with a quotient from 512 on, \
                  where d is x - 512y and s is 256 - y, the low bits of 511 - d div s, and d mod s + y",
        says: quotient_cut,
    },
    Row {
        code: "DIVS, the quotient does not fit",
        book: "V is 1 and no value is given (000, 2449), so the destination is kept (02, K7)",
        witness: "the low bits of quotient and remainder; V is 1 only where the quotient is above 255, for words 65,535: never where it is negative",
        says: signed_quotient_cut,
    },
    Row {
        code: "MINC",
        book: "turns where the value modulo the number is the number less the step (000, 2570, 2612 and 2654)",
        witness: "for a value that the step does not divide: turns where it has every bit of the number less the step; else as the book",
        says: minc_by_bits,
    },
    Row {
        code: "MDEC",
        book: "turns where the value modulo the number is 0, and nowhere else (000, 2698, 2742 and 2786, and its examples)",
        witness: "turns where the value has every bit of the number less the step, and nowhere else",
        says: mdec_by_bits,
    },
    Row {
        code: "a request of level 7",
        book: "the mask is 7 afterwards (02, K8)",
        witness: "the mask is kept",
        says: mask_kept,
    },
];

/// The place in the table of the row for these codes.
pub fn place_of(code: &str) -> usize {
    let found = ROWS.iter().position(|row| row.code == code);
    found.unwrap_or_else(|| panic!("no row is for {code}"))
}

const BIT_10: u32 = 1 << 10;
/// Bits 15 and 11 of SR, which are always 1; and 10, 5 and 3, which are always 0.
const ONES: u32 = 0x8800;
const FIXED: u32 = ONES | 0x0428;
/// The bits of the counter that no address has.
const BEYOND: u32 = 0xFF00_0000;

fn bank_of_eight(done: &Done, _: &Seen) -> Apart {
    let goes_round = matches!((done.code, done.bank()), ([0x0C], 3) | ([0x0D], 0));
    Apart::sr(if goes_round { BIT_10 } else { 0 })
}

fn bank_loaded_whole(done: &Done, _: &Seen) -> Apart {
    let large = matches!(done.code, [0x17, 4..=7]);
    Apart::sr(if large { BIT_10 } else { 0 })
}

fn flags_as_popped(done: &Done, _: &Seen) -> Apart {
    Apart::sr(match done.code {
        [0x19] => done.on_stack(0, 1) & FIXED,
        _ => 0,
    })
}

fn status_as_popped(done: &Done, _: &Seen) -> Apart {
    Apart::sr(match done.code {
        [0x03] | [0x07] => (done.on_stack(0, 2) ^ ONES) & FIXED,
        _ => 0,
    })
}

fn half_carry_kept(done: &Done, _: &Seen) -> Apart {
    Apart::sr(match done.code {
        [0x12] | [0x13] => u32::from(done.before[F]) & H,
        _ => 0,
    })
}

fn parity_of_long(done: &Done, seen: &Seen) -> Apart {
    let Some((size, place, [0xEC..=0xEF, _])) = register_form(done) else {
        return Apart::default();
    };
    let even = value(&seen.registers, place).count_ones() % 2 == 0;
    Apart::sr(if size.bytes == 4 && even { V } else { 0 })
}

/// The borrow of A or WA less the element, into its lowest four bits.
fn no_borrow(done: &Done, _: &Seen) -> Apart {
    let Some(pointer) = compare_pointer(done) else {
        return Apart::default();
    };
    let element = done.byte(done.long(pointer));
    let borrow = done.long(0) & 15 < u32::from(element & 15);
    Apart::sr(if borrow { H } else { 0 })
}

/// What the witness takes its counter from, if that is not the one before.
fn counter_whole(done: &Done, _: &Seen) -> Apart {
    let from = match done.code {
        [0x0E] => done.on_stack(0, 4),
        [0x07] => done.on_stack(2, 4),
        [0x1A..=0x1D, ..] => 0,
        _ => done.counter(),
    };
    Apart {
        counter: from & BEYOND,
        ..Apart::default()
    }
}

fn counter_of_32_bits(done: &Done, seen: &Seen) -> Apart {
    let next = done.next();
    let goes = (seen.counter ^ next) & !BEYOND != 0;
    let stays = (seen.counter ^ done.counter()) & !BEYOND == 0;
    let to = match *done.code {
        // to an address, or to one on the stack
        [0x1A..=0x1D, ..] | [0x0E] | [0x07] => done.counter(),
        [0x1E, low, high] => next.wrapping_add(signed([low, high])),
        [0x60..=0x6F, by] if goes => next.wrapping_add(i32::from(by as i8) as u32),
        [0x70..=0x7F, low, high] if goes => next.wrapping_add(signed([low, high])),
        [0x82..=0x97, 0x11 | 0x13 | 0x15 | 0x17] if stays => done.counter(),
        _ => next,
    };
    let pushes = matches!(done.code[0], 0x1C..=0x1E);
    let top = done.long(7).wrapping_sub(1) & !BEYOND;
    Apart {
        counter: (to ^ done.counter()) & BEYOND,
        memory: pushes.then_some((top, (next >> 24) as u8)),
        ..Apart::default()
    }
}

fn signed(low_first: [u8; 2]) -> u32 {
    i32::from(i16::from_le_bytes(low_first)) as u32
}

fn divided_by_zero(done: &Done, _: &Seen) -> Apart {
    let Some(division) = division(done).filter(|one| one.exact().is_none()) else {
        return Apart::default();
    };
    let (dividend, _) = division.numbers();
    let remainder = if dividend < 0 { -1 } else { dividend };
    division.leaves(!i64::from(division.high()), remainder)
}

/// A division whose quotient does not fit, with that and the remainder.
fn overflow(done: &Done, signed: bool) -> Option<(Division, i64, i64)> {
    let division = division(done).filter(|one| one.scale.signed == signed && !one.fits())?;
    let (quotient, remainder) = division.exact()?;
    Some((division, quotient, remainder))
}

fn quotient_cut(done: &Done, _: &Seen) -> Apart {
    let Some((division, quotient, remainder)) = overflow(done, false) else {
        return Apart::default();
    };
    if division.size.bytes == 1 && quotient >= 512 {
        let (x, y) = division.numbers();
        let (d, s) = (x - 512 * y, 256 - y);
        division.leaves(511 - d / s, d % s + y)
    } else {
        division.leaves(quotient, remainder)
    }
}

fn signed_quotient_cut(done: &Done, _: &Seen) -> Apart {
    let Some((division, quotient, remainder)) = overflow(done, true) else {
        return Apart::default();
    };
    let v = quotient >> division.bits() > 0;
    Apart {
        sr: if v { 0 } else { V },
        ..division.leaves(quotient, remainder)
    }
}

fn minc_by_bits(done: &Done, _: &Seen) -> Apart {
    let between = |one: &Modulo| one.goes_up() && one.before(done) % one.by() != 0;
    let minc = modulo(done).filter(between);
    minc.map_or_else(Apart::default, |minc| minc.turned_by(done, minc.last))
}

fn mdec_by_bits(done: &Done, _: &Seen) -> Apart {
    let turns = |one: &Modulo| {
        let value = one.before(done);
        !one.goes_up() && (value % one.number() == 0 || value & one.last == one.last)
    };
    let mdec = modulo(done).filter(turns);
    mdec.map_or_else(Apart::default, |mdec| mdec.turned_by(done, mdec.last))
}

/// EI, POP SR and RETI set it anew.
fn mask_kept(done: &Done, _: &Seen) -> Apart {
    let sets = matches!(done.code, [0x06, _] | [0x03] | [0x07]);
    let highest = done.asked.filter(|asked| asked.level == 7 && !sets);
    Apart::sr(highest.map_or(0, |asked| (7 ^ asked.mask) << 12))
}
