//! What K7's codes do, as data to test with: MUL, MULS, DIV and DIVS, and the modulo
//! steps MINC and MDEC.
//!
//! Written from K7 and 000's pages alone. A quotient is not worked out here: what
//! was left is held to what makes it the quotient.

use crate::banks::Size;

/// One of MUL, MULS, DIV and DIVS.
#[derive(Clone, Copy, Debug, PartialEq, Eq)]
pub struct Scale {
    /// The second byte with r and R, less R.
    pub with_register: u8,
    /// The second byte with a constant.
    pub with_constant: u8,
    pub divides: bool,
    pub signed: bool,
}

pub const MUL: Scale = Scale {
    with_register: 0x40,
    with_constant: 0x08,
    divides: false,
    signed: false,
};
pub const MULS: Scale = Scale {
    with_register: 0x48,
    with_constant: 0x09,
    divides: false,
    signed: true,
};
pub const DIV: Scale = Scale {
    with_register: 0x50,
    with_constant: 0x0A,
    divides: true,
    signed: false,
};
pub const DIVS: Scale = Scale {
    with_register: 0x58,
    with_constant: 0x0B,
    divides: true,
    signed: true,
};
pub const SCALES: [Scale; 4] = [MUL, MULS, DIV, DIVS];

/// The second bytes of all that K7 adds, and 3B and 3F, which it does not.
pub fn second_bytes() -> impl Iterator<Item = u8> + Clone {
    (0x08..=0x0B).chain(0x38..=0x5F)
}

/// The one of the four that a second byte is of.
pub fn scale(second: u8) -> Option<Scale> {
    let is = |scale: &&Scale| second == scale.with_constant || second & 0xF8 == scale.with_register;
    SCALES.iter().find(is).copied()
}

/// A value of so many bytes as a number, with a sign or without.
pub fn number(bytes: usize, value: u32, signed: bool) -> i64 {
    let bits = 8 * bytes;
    let negative = signed && value >> (bits - 1) == 1;
    i64::from(value) - if negative { 1 << bits } else { 0 }
}

impl Scale {
    /// Whether a register of twice this size may come from `before` to `after` by
    /// something of this size; `v` is V afterwards, where it divides.
    pub fn leaves(self, size: Size, before: u32, by: u32, after: u32, v: bool) -> bool {
        let low = |value: u32| value & ((1 << (8 * size.bytes)) - 1);
        let half = |value: u32| number(size.bytes, value, self.signed);
        let whole = |value: u32| number(2 * size.bytes, value, self.signed);
        if !self.divides {
            return whole(after) == half(low(before)) * half(by);
        }
        let (dividend, divisor) = (whole(before), half(by));
        if v || !self.fits(size, dividend, divisor) {
            return v && after == before && !self.fits(size, dividend, divisor);
        }
        let quotient = half(low(after));
        let remainder = half(after >> (8 * size.bytes));
        // It has the dividend's sign, or is 0.
        dividend == quotient * divisor + remainder
            && remainder.abs() < divisor.abs()
            && remainder * dividend >= 0
    }

    /// Whether there is a quotient and it fits: without a sign below 2^8 or 2^16,
    /// with one below half of that, and down to as much below zero.
    pub fn fits(self, size: Size, dividend: i64, divisor: i64) -> bool {
        let all = 1 << (8 * size.bytes);
        let most = match (self.signed, (dividend < 0) == (divisor < 0)) {
            (false, _) => all,
            (true, true) => all / 2,
            // One more below zero than above.
            (true, false) => all / 2 + 1,
        };
        dividend.abs() < most * divisor.abs()
    }
}

/// One of MINC1, MINC2, MINC4, MDEC1, MDEC2 and MDEC4.
#[derive(Clone, Copy, Debug, PartialEq, Eq)]
pub struct Step {
    /// The byte behind r.
    pub second: u8,
    /// How far it goes, down if negative.
    pub by: i32,
    /// The least number is 2 to this power; the greatest is 2^15.
    least: u32,
}

pub const STEPS: [Step; 6] = [
    Step {
        second: 0x38,
        by: 1,
        least: 1,
    },
    Step {
        second: 0x39,
        by: 2,
        least: 2,
    },
    Step {
        second: 0x3A,
        by: 4,
        least: 3,
    },
    Step {
        second: 0x3C,
        by: -1,
        least: 1,
    },
    Step {
        second: 0x3D,
        by: -2,
        least: 2,
    },
    Step {
        second: 0x3E,
        by: -4,
        least: 3,
    },
];

/// The one of the six that a second byte is of.
pub fn step(second: u8) -> Option<Step> {
    STEPS.into_iter().find(|step| step.second == second)
}

impl Step {
    /// The numbers that there are.
    pub fn numbers(self) -> impl Iterator<Item = u16> {
        (self.least..=15).map(|n| 1 << n)
    }

    /// A number as it stands in the code: less the step, low byte first.
    pub fn coded(self, number: u16) -> [u8; 2] {
        (number - self.by.unsigned_abs() as u16).to_le_bytes()
    }

    /// The number that two bytes of code stand for, if they do.
    pub fn number(self, coded: [u8; 2]) -> Option<u16> {
        self.numbers().find(|&number| self.coded(number) == coded)
    }

    /// What a register that holds this holds afterwards. One that the step divides
    /// goes round in its table; any other is never at the table's end, and goes on.
    pub fn after(self, value: u16, number: u16) -> u16 {
        let (value, number) = (i32::from(value), i32::from(number));
        let in_table = value % number;
        let moved = match value % self.by {
            0 => value - in_table + (in_table + self.by).rem_euclid(number),
            _ => value + self.by,
        };
        moved.rem_euclid(0x1_0000) as u16
    }
}
