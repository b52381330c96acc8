//! What a saved record has to be, bit by bit, and what a move of one answers, as
//! data to test with.
//!
//! Written from 01's paragraph on saved states and from K6, K8 and K9 alone.

/// How many bytes the old record has, and the new one.
pub const OLD: usize = 88;
pub const NEW: usize = 92;

/// The bits that are the same in every record: their byte, which bits of it, and
/// what they are. An old record has those of its 88 bytes.
const FIXED: [(usize, u8, u8); 7] = [
    (83, 0xFF, 0x00), // the counter is below 2^24
    (84, 0x28, 0x00), // bits 5 and 3 of F
    (85, 0x8C, 0x88), // bit 10 of SR; bits 11 and 15, which are 1
    (86, 0x28, 0x00), // bits 5 and 3 of F'
    (87, 0xFF, 0x00), // the zero byte of both records
    (90, 0xF0, 0x00), // above the four marks
    (91, 0xFF, 0x00), // the zero byte of the new one
];

/// Where the marks stand.
const MARKS: usize = 90;
/// Each mark's bit in its byte, with the byte and the bit of its flag.
pub const MARKED: [(u8, usize, u8); 4] = [
    (0x01, 84, 0x10),
    (0x02, 84, 0x04),
    (0x04, 86, 0x10),
    (0x08, 86, 0x04),
];

/// Brings the bits right that are the same in every record.
pub fn mend(record: &mut [u8]) {
    for (byte, bits, value) in FIXED {
        if let Some(byte) = record.get_mut(byte) {
            *byte = *byte & !bits | value;
        }
    }
}

/// Whether these bytes are an old record.
pub fn is_old(record: &[u8]) -> bool {
    record.len() == OLD && is_fixed(record)
}

/// Whether these bytes are a new one.
pub fn is_new(record: &[u8]) -> bool {
    record.len() == NEW && is_fixed(record) && marks_fit(record)
}

fn is_fixed(record: &[u8]) -> bool {
    let mut within = FIXED.iter().filter(|row| row.0 < record.len());
    within.all(|&(byte, bits, value)| record[byte] & bits == value)
}

/// Whether every marked flag is 0.
pub fn marks_fit(record: &[u8]) -> bool {
    let mut marked = MARKED.iter().filter(|row| record[MARKS] & row.0 != 0);
    marked.all(|&(_, byte, flag)| record[byte] & flag == 0)
}

/// What a move of an old record to a room of so many bytes answers.
pub fn widened(old: &[u8], room: usize) -> u8 {
    if is_old(old) && room == NEW {
        0
    } else {
        2
    }
}

/// What a move of a new record to a room of so many bytes answers.
pub fn narrowed(new: &[u8], room: usize) -> u8 {
    if !is_new(new) || room != OLD {
        2
    } else if new[OLD..] != [0; NEW - OLD] {
        10
    } else {
        0
    }
}
