//! The three sizes of an operand, and what a value means at each of them.

/// How many bytes an operand has.
#[derive(Clone, Copy, Debug, PartialEq, Eq)]
pub enum Width {
    /// One byte.
    Byte,
    /// Two bytes.
    Word,
    /// Four bytes.
    Long,
}

impl Width {
    /// The size in bytes.
    pub fn bytes(self) -> usize {
        match self {
            Width::Byte => 1,
            Width::Word => 2,
            Width::Long => 4,
        }
    }

    /// Half the width. A byte has none, and nothing asks for it.
    pub(crate) fn half(self) -> Width {
        match self {
            Width::Long => Width::Word,
            Width::Word | Width::Byte => Width::Byte,
        }
    }

    /// One more than the greatest unsigned value.
    pub(crate) fn modulus(self) -> i64 {
        match self {
            Width::Byte => 0x100,
            Width::Word => 0x1_0000,
            Width::Long => 0x1_0000_0000,
        }
    }

    /// Any number, brought round into the unsigned values of this width.
    pub(crate) fn round(self, number: i64) -> u32 {
        let within = number.rem_euclid(self.modulus());
        u32::try_from(within).expect("a remainder is below the modulus")
    }

    /// The value read as a signed number: the upper half stands for the
    /// negative ones.
    pub(crate) fn signed(self, value: u32) -> i64 {
        let plain = i64::from(value);
        if plain < self.modulus() / 2 {
            plain
        } else {
            plain - self.modulus()
        }
    }

    /// The value read as a number, with a sign or without.
    pub(crate) fn number(self, value: u32, signed: bool) -> i64 {
        if signed {
            self.signed(value)
        } else {
            i64::from(value)
        }
    }

    /// Whether a signed number can be held without overflow.
    pub(crate) fn holds_signed(self, number: i64) -> bool {
        let half = self.modulus() / 2;
        (-half..half).contains(&number)
    }

    /// Whether an unsigned number can be held without carry or borrow.
    pub(crate) fn holds_unsigned(self, number: i64) -> bool {
        (0..self.modulus()).contains(&number)
    }

    /// Whether a number can be held, with a sign or without.
    pub(crate) fn holds(self, number: i64, signed: bool) -> bool {
        if signed {
            self.holds_signed(number)
        } else {
            self.holds_unsigned(number)
        }
    }
}

/// Puts bytes together, low byte first.
pub(crate) fn gather(bytes: &[u8]) -> u32 {
    bytes
        .iter()
        .rev()
        .fold(0, |high, &byte| high * 0x100 + u32::from(byte))
}

/// Takes a value apart over the given bytes, low byte first.
pub(crate) fn scatter(value: u32, bytes: &mut [u8]) {
    let mut rest = value;
    for byte in bytes {
        *byte = (rest % 0x100) as u8;
        rest /= 0x100;
    }
}
