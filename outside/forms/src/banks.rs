//! Which bytes of a record a register code of K1 names, as data to test with.
//!
//! Written from K1, the map that was decided for it, 003's tables of names (lines
//! 346 to 386), and for registers of twice the size from K7 and 000's tables of RR
//! and rr alone.

use std::ops::Range;

/// A size of operands.
#[derive(Clone, Copy, Debug, PartialEq, Eq)]
pub struct Size {
    /// How many bytes.
    pub bytes: usize,
    /// The first byte of K1's forms.
    pub any: u8,
    /// The first byte of 01's forms with register 0.
    pub plain: u8,
}

/// The three sizes.
pub const SIZES: [Size; 3] = [
    Size {
        bytes: 1,
        any: 0xC7,
        plain: 0xC8,
    },
    Size {
        bytes: 2,
        any: 0xD7,
        plain: 0xD8,
    },
    Size {
        bytes: 4,
        any: 0xE7,
        plain: 0xE8,
    },
];

/// For the first of sixteen codes: where in a record their bytes begin while
/// bank 0 is the current one, bank 1, bank 2, bank 3.
const SIXTEENS: [(u8, [usize; 4]); 7] = [
    (0x00, [0, 0, 0, 0]),
    (0x10, [16, 16, 16, 16]),
    (0x20, [32, 32, 32, 32]),
    (0x30, [48, 48, 48, 48]),
    (0xD0, [48, 0, 16, 32]),
    (0xE0, [0, 16, 32, 48]),
    (0xF0, [64, 64, 64, 64]),
];

/// The codes of what 01 calls by 0 to 7: W A B C D E H L; and WA BC DE HL IX IY
/// IZ SP, with X before them or without.
const PLAIN_BYTES: [u8; 8] = [0xE1, 0xE0, 0xE5, 0xE4, 0xE9, 0xE8, 0xED, 0xEC];
const PLAIN_OTHERS: [u8; 8] = [0xE0, 0xE4, 0xE8, 0xEC, 0xF0, 0xF4, 0xF8, 0xFC];

impl Size {
    /// The bytes of a record that a code names while this bank is the current
    /// one; `None` if it names no register of this size.
    pub fn named(self, code: u8, bank: u8) -> Option<Range<usize>> {
        let row = SIXTEENS.iter().find(|row| row.0 == code & 0xF0)?;
        let first = row.1[usize::from(bank)] + usize::from(code & 0x0F);
        (first % self.bytes == 0).then_some(first..first + self.bytes)
    }

    /// The bytes of what 01 calls by 0 to 7.
    pub fn plain(self, r: u8, bank: u8) -> Range<usize> {
        let named = self.named(self.code_of_plain(r), bank);
        named.expect("the code of a register")
    }

    /// The bytes of the register of twice this size whose lower half these are;
    /// `None` if they are an upper half, or a long.
    pub fn whole(self, lower: Range<usize>) -> Option<Range<usize>> {
        let bytes = 2 * self.bytes;
        let begins_one = bytes <= 4 && lower.start % bytes == 0;
        begins_one.then_some(lower.start..lower.start + bytes)
    }

    /// What a register form takes r for: itself, or the register whose lower half
    /// it is. `None` if there is no such register.
    pub fn taken(self, second: u8, r: Range<usize>) -> Option<Range<usize>> {
        match written(second) {
            Written::WholeNamed => self.whole(r),
            _ => Some(r),
        }
    }

    /// The bytes of R of a register form, or of the register whose lower half R is,
    /// where that is meant. MUL to DIVS by a constant have no R.
    pub fn beside(self, second: u8, bank: u8) -> Range<usize> {
        let beside = self.plain(second & 7, bank);
        match written(second) {
            Written::WholeNamed => 0..0,
            Written::WholeBeside => self.whole(beside.clone()).unwrap_or(beside),
            _ => beside,
        }
    }

    /// The code of what 01 calls by 0 to 7.
    fn code_of_plain(self, r: u8) -> u8 {
        match self.bytes {
            1 => PLAIN_BYTES[usize::from(r)],
            _ => PLAIN_OTHERS[usize::from(r)],
        }
    }
}

/// What a register form writes.
#[derive(Clone, Copy, Debug, PartialEq, Eq)]
pub enum Written {
    /// No register: CP.
    Nothing,
    /// r, which a code of K1 can name.
    Named,
    /// R, which the lowest three bits name.
    Beside,
    /// The register whose lower half r is: MUL to DIVS by a constant.
    WholeNamed,
    /// The register whose lower half R is: MUL to DIVS by r.
    WholeBeside,
}

/// The bytes that a register form writes; `named` are those of r, and `second` is
/// the byte behind it. None where nothing is written, or there is no such register.
pub fn place_written(size: Size, named: &Range<usize>, second: u8, bank: u8) -> Range<usize> {
    let beside = size.plain(second & 7, bank);
    let place = match written(second) {
        Written::Nothing => None,
        Written::Named => Some(named.clone()),
        Written::Beside => Some(beside),
        Written::WholeNamed => size.whole(named.clone()),
        Written::WholeBeside => size.whole(beside),
    };
    place.unwrap_or(0..0)
}

/// The registers of 01, as their numbers and bytes, that can change places with r of
/// a register form: those that have nothing in common with R.
pub fn stand_ins(size: Size, second: u8, bank: u8) -> Vec<(u8, Range<usize>)> {
    let taken = |r| Some((r, size.taken(second, size.plain(r, bank))?));
    let beside = size.beside(second, bank);
    let all = (0..8).filter_map(taken);
    all.filter(|(_, place)| !overlap(place, &beside)).collect()
}

/// Whether two registers have a byte in common.
pub fn overlap(one: &Range<usize>, other: &Range<usize>) -> bool {
    one.start < other.end && other.start < one.end
}

/// What a register form with this second byte, the first behind r, writes.
pub fn written(second: u8) -> Written {
    match second {
        0xCF | 0xF0..=0xF7 => Written::Nothing,
        0x08..=0x0B => Written::WholeNamed,
        0x40..=0x5F => Written::WholeBeside,
        // LD r,R; with a constant; shifts
        0x98..=0x9F | 0xC8..=0xCE | 0xEC..=0xEF => Written::Named,
        // LD R,r and what changes R
        0x80..=0xE7 => Written::Beside,
        // LD r,n; INC, DEC and extensions; MINC and MDEC
        _ => Written::Named,
    }
}
