//! What the listed codes do to the marks of K6, as data to test with.
//!
//! Written from K1, K6, K7, K8 and the flag lines of 000 alone. Marks stand in the
//! bits of a record's byte: bit 0 for H of F, bit 1 for V of F, bit 2 for H of F',
//! bit 3 for V of F'.

/// H of F.
pub const H: u8 = 1;
/// V of F.
pub const V: u8 = 2;
/// Both of F.
pub const BOTH: u8 = H | V;
/// Every value that the marks can have together.
pub const ALL: std::ops::Range<u8> = 0..16;

/// What becomes of the marks of F.
#[derive(Clone, Copy)]
enum Fate {
    /// All flags are kept, and all marks with them.
    Kept,
    /// H and V get a defined value.
    Defined,
    /// H does; V is kept.
    HDefined,
    /// V does; H is kept.
    VDefined,
    /// H is undefined; V is kept.
    HUndefined,
    /// H is undefined; V gets a defined value.
    HUndefinedVDefined,
    /// V is undefined; H gets a defined value.
    VUndefinedHDefined,
    /// F and F' change places.
    Exchanged,
}

/// The marks after a listed code is done, from those before it.
pub fn after(code: &[u8], marks: u8) -> u8 {
    match fate(code) {
        Fate::Kept => marks,
        Fate::Defined => marks & !BOTH,
        Fate::HDefined => marks & !H,
        Fate::VDefined => marks & !V,
        Fate::HUndefined => marks | H,
        Fate::HUndefinedVDefined => marks & !V | H,
        Fate::VUndefinedHDefined => marks & !H | V,
        Fate::Exchanged => (marks << 2 | marks >> 2) & 0x0F,
    }
}

/// Whether a listed code is refused with 8: PUSH F and PUSH SR for either mark
/// of F, a jump with a condition that reads V for V's.
pub fn refused(code: &[u8], marks: u8) -> bool {
    match code[0] {
        0x02 | 0x18 => marks & BOTH != 0,
        first @ 0x60..=0x7F => marks & V != 0 && reads_v(first & 0x0F),
        _ => false,
    }
}

/// LT, LE and V, and their opposites.
pub fn reads_v(condition: u8) -> bool {
    matches!(condition, 1 | 2 | 4 | 9 | 10 | 12)
}

fn fate(code: &[u8]) -> Fate {
    match *code {
        [0x10 | 0x11] => Fate::HDefined,
        [0x12 | 0x13] => Fate::HUndefined,
        [0x16] => Fate::Exchanged,
        // POP SR, RETI, POP F
        [0x03 | 0x07 | 0x19] => Fate::Defined,
        // behind the code that names a register
        [first @ (0xC7 | 0xD7 | 0xE7), _, second, ..] => of_register_form(first, second),
        [first @ (0xC8..=0xCF | 0xD8..=0xDF | 0xE8..=0xEF), second, ..] => {
            of_register_form(first, second)
        }
        [first @ (0x80..=0xAF | 0xC0..=0xC2 | 0xD0..=0xD2 | 0xE0..=0xE2), .., last] => {
            of_memory_form(first, last)
        }
        _ => Fate::Kept,
    }
}

fn of_register_form(first: u8, second: u8) -> Fate {
    let long = first >= 0xE7;
    match second {
        // DIV and DIVS, by a constant and by a register
        0x0A..=0x0B | 0x50..=0x5F => Fate::VDefined,
        // INC and DEC
        0x60..=0x6F if first <= 0xCF => Fate::Defined,
        // with a constant
        0xC8..=0xCF => of_operation(long, second & 7),
        // shifts
        0xEC..=0xEF if long => Fate::VUndefinedHDefined,
        0xEC..=0xEF => Fate::Defined,
        // with a register
        0x80..=0xF7 if second & 8 == 0 => of_operation(long, second >> 4 & 7),
        _ => Fate::Kept,
    }
}

fn of_memory_form(first: u8, last: u8) -> Fate {
    let long = matches!(first, 0xA0..=0xAF | 0xE0..=0xE2);
    match last {
        // copies and compares
        0x10..=0x17 => Fate::Defined,
        0x80..=0xFF => of_operation(long, last >> 4 & 7),
        _ => Fate::Kept,
    }
}

/// The eight operations in the order of their codes: ADD ADC SUB SBC AND XOR OR
/// CP. AND, XOR and OR have parity in V.
fn of_operation(long: bool, operation: u8) -> Fate {
    match operation {
        _ if !long => Fate::Defined,
        4..=6 => Fate::VUndefinedHDefined,
        _ => Fate::HUndefinedVDefined,
    }
}
