//! What a code works on, by the state before it: compares, register forms, divisions
//! and modulo steps.

use crate::desk::Done;
use crate::rows::Apart;
use crate::seen::value;
use forms::banks::{Size, SIZES};
use forms::feed;
use std::ops::Range;

/// The code of the pointer of CPI, CPIR, CPD or CPDR.
pub fn compare_pointer(done: &Done) -> Option<u8> {
    match done.code {
        &[first @ (0x82..=0x87 | 0x92..=0x97), 0x14..=0x17] => Some(first & 7),
        _ => None,
    }
}

/// A register form: its size, the bytes of r in a record, and the code behind r.
pub fn register_form<'a>(done: &'a Done) -> Option<(Size, Range<usize>, &'a [u8])> {
    let (&first, rest) = done.code.split_first()?;
    let bank = done.bank();
    for size in SIZES {
        if first == size.any {
            let (&code, rest) = rest.split_first()?;
            return Some((size, size.named(code, bank)?, rest));
        }
        if (size.plain..size.plain + 8).contains(&first) {
            return Some((size, size.plain(first - size.plain, bank), rest));
        }
    }
    None
}

/// A division: which, its size, the bytes of the destination in a record, the
/// dividend and the divisor.
pub struct Division {
    pub scale: feed::Scale,
    pub size: Size,
    place: Range<usize>,
    dividend: u32,
    divisor: u32,
}

pub fn division(done: &Done) -> Option<Division> {
    let (size, r, rest) = register_form(done)?;
    let scale = feed::scale(rest[0]).filter(|scale| scale.divides)?;
    let (place, divisor) = if rest[0] == scale.with_constant {
        (size.whole(r)?, value(rest, 1..rest.len()))
    } else {
        let low = size.plain(rest[0] & 7, done.bank());
        (size.whole(low)?, value(done.before, r))
    };
    Some(Division {
        scale,
        size,
        dividend: value(done.before, place.clone()),
        place,
        divisor,
    })
}

impl Division {
    /// How many bits a half of the destination has.
    pub fn bits(&self) -> u32 {
        8 * self.size.bytes as u32
    }

    /// The high half of the dividend.
    pub fn high(&self) -> u32 {
        self.dividend >> self.bits()
    }

    /// The dividend and the divisor as numbers, with a sign or without.
    pub fn numbers(&self) -> (i64, i64) {
        let number = |bytes, value| feed::number(bytes, value, self.scale.signed);
        let bytes = self.size.bytes;
        (
            number(2 * bytes, self.dividend),
            number(bytes, self.divisor),
        )
    }

    /// The quotient and the remainder; none by 0.
    pub fn exact(&self) -> Option<(i64, i64)> {
        let (dividend, divisor) = self.numbers();
        (divisor != 0).then(|| (dividend / divisor, dividend % divisor))
    }

    /// Whether there is a quotient and it fits its half.
    pub fn fits(&self) -> bool {
        let (dividend, divisor) = self.numbers();
        self.scale.fits(self.size, dividend, divisor)
    }

    /// The low bits of both in the destination, where it should have been kept.
    pub fn leaves(&self, quotient: i64, remainder: i64) -> Apart {
        let low = |number: i64| number as u32 & ((1 << self.bits()) - 1);
        let left = low(quotient) | low(remainder) << self.bits();
        Apart::register(self.place.clone(), self.dividend, left)
    }
}

/// MINC or MDEC: the step, the bytes of r, and the number less the step.
pub struct Modulo {
    pub step: feed::Step,
    pub place: Range<usize>,
    pub last: u16,
}

pub fn modulo(done: &Done) -> Option<Modulo> {
    let (_, place, rest) = register_form(done)?;
    let &[second, low, high] = rest else {
        return None;
    };
    Some(Modulo {
        step: feed::step(second)?,
        place,
        last: u16::from_le_bytes([low, high]),
    })
}

impl Modulo {
    pub fn goes_up(&self) -> bool {
        self.step.by > 0
    }

    /// How far it steps.
    pub fn by(&self) -> u16 {
        self.step.by.unsigned_abs() as u16
    }

    pub fn number(&self) -> u16 {
        self.last + self.by()
    }

    /// The value before the step.
    pub fn before(&self, done: &Done) -> u16 {
        value(done.before, self.place.clone()) as u16
    }

    /// A value that turns where it has all of these bits, and should have turned at
    /// the end of its table.
    pub fn turned_by(&self, done: &Done, bits: u16) -> Apart {
        let before = self.before(done);
        let turns = before & bits == bits;
        let left = match (self.goes_up(), turns) {
            (true, true) => before.wrapping_sub(self.last),
            (true, false) => before.wrapping_add(self.by()),
            (false, true) => before.wrapping_add(self.last),
            (false, false) => before.wrapping_sub(self.by()),
        };
        let book = self.step.after(before, self.number());
        Apart::register(self.place.clone(), u32::from(book), u32::from(left))
    }
}
