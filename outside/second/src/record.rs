//! Where everything stands in a state's record. It begins as document 01 has
//! it: banks 0 to 3 (XWA, XBC, XDE, XHL each), XIX, XIY, XIZ, XSP, the counter
//! in four bytes, SR in two, F' in one, a zero byte. That was all of the old
//! record; for K6 and K8 the new one has four more: the nesting count in two,
//! the marks in one, a zero byte.
//!
//! Whoever looks into a record goes by this. One test states the offsets as
//! numbers (`where_everything_lies` in `tests/records.rs`).

use crate::width::Width;
use std::ops::Range;

const LONG: usize = 4;
/// The bytes of a bank.
pub const BANK_SIZE: usize = 4 * LONG;
/// The first of the registers that all banks share, which end at the counter.
pub const SHARED: usize = 4 * BANK_SIZE;
/// The program counter, which ends at SR.
pub const COUNTER: usize = SHARED + 4 * LONG;
/// SR, which ends at F'.
pub const SR: usize = COUNTER + 4;
/// The low byte of SR: the flags.
pub const F: usize = SR;
/// The high byte of SR: the bank and the level.
pub const BANK: usize = SR + 1;
/// The spare flags F'.
pub const F_PRIME: usize = SR + 2;
/// The byte behind F', which is always zero.
pub const ZERO: usize = F_PRIME + 1;
/// The length of an old record, and where what it lacks begins.
pub const OLD_LENGTH: usize = ZERO + 1;
/// The nesting count, which ends at the marks. It may have any value.
pub const NESTING: usize = OLD_LENGTH;
/// The marks: bit 0 for H of F, bit 1 for V of F, bit 2 for H of F', bit 3 for
/// V of F'. Bits 4 to 7 are always zero.
pub const MARKS: usize = NESTING + 2;
/// The last byte, which is always zero.
pub const LAST: usize = MARKS + 1;
/// The length of a record.
pub const LENGTH: usize = LAST + 1;
/// Every byte that is always zero.
pub const ZEROS: [usize; 2] = [ZERO, LAST];

/// The byte registers by their codes.
pub const BYTES: [&str; 8] = ["W", "A", "B", "C", "D", "E", "H", "L"];
/// The word registers by their codes.
pub const WORDS: [&str; 8] = ["WA", "BC", "DE", "HL", "IX", "IY", "IZ", "SP"];
/// The long registers by their codes.
pub const LONGS: [&str; 8] = ["XWA", "XBC", "XDE", "XHL", "XIX", "XIY", "XIZ", "XSP"];

/// The bytes of the register of this width and code, of this bank where it is
/// one of a bank's. Byte registers come in pairs: the even codes W, B, D, H
/// are the second byte of a long, the odd ones A, C, E, L the first.
pub fn register(width: Width, code: u8, bank: u8) -> Range<usize> {
    let code = usize::from(code % 8);
    let bank = BANK_SIZE * usize::from(bank % 4);
    let first = match width {
        Width::Byte => bank + code / 2 * LONG + (code + 1) % 2,
        Width::Word | Width::Long if code < 4 => bank + code * LONG,
        Width::Word | Width::Long => SHARED + (code - 4) * LONG,
    };
    first..first + width.bytes()
}

/// The bytes of the register of this name, of bank 0 where it is one of a
/// bank's; a long one may have its bank's number behind it, as XWA2. `None` if
/// no register is called so.
pub fn named(name: &str) -> Option<Range<usize>> {
    let widths = [
        (Width::Byte, BYTES),
        (Width::Word, WORDS),
        (Width::Long, LONGS),
    ];
    let plain = widths.iter().find_map(|(width, names)| {
        let code = names.iter().position(|&known| known == name)?;
        Some(register(*width, code as u8, 0))
    });
    plain.or_else(|| numbered(name))
}

fn numbered(name: &str) -> Option<Range<usize>> {
    let (long, number) = (name.get(..3)?, name.get(3..)?);
    let code = LONGS[..4].iter().position(|&known| known == long)?;
    let bank = ["0", "1", "2", "3"].iter().position(|&one| one == number)?;
    Some(register(Width::Long, code as u8, bank as u8))
}
