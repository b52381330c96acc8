//! What K8 says of requests and of SR, as data to test with.
//!
//! Written from K8 and the table of 003 (lines 161 to 168) alone.

/// For each mask, 0 to 7: the levels that are taken.
const TAKEN: [&[u32]; 8] = [
    &[1, 2, 3, 4, 5, 6, 7],
    &[1, 2, 3, 4, 5, 6, 7],
    &[2, 3, 4, 5, 6, 7],
    &[3, 4, 5, 6, 7],
    &[4, 5, 6, 7],
    &[5, 6, 7],
    &[6, 7],
    &[7],
];

/// For each level, 1 to 7: the mask after it was taken.
const MASK_AFTER: [u8; 7] = [2, 3, 4, 5, 6, 7, 7];

/// The levels that a request may have.
pub const LEVELS: std::ops::RangeInclusive<u32> = 1..=7;
/// The first number that is no address.
pub const ADDRESSES: u32 = 0x100_0000;

/// Whether a request is one that there can be.
pub fn possible(level: u32, vector: u32) -> bool {
    LEVELS.contains(&level) && vector < ADDRESSES
}

/// Whether a request of a level from 1 to 7 is taken at a mask.
pub fn taken(mask: u8, level: u32) -> bool {
    TAKEN[usize::from(mask)].contains(&level)
}

/// The mask after a request of a level from 1 to 7 was taken.
pub fn mask_after(level: u32) -> u8 {
    MASK_AFTER[level as usize - 1]
}

/// What SR is after a word was popped to it.
pub fn popped(word: u16) -> u16 {
    const ONES: u16 = 1 << 15 | 1 << 11;
    const ZEROS: u16 = 1 << 10 | 1 << 5 | 1 << 3;
    (word | ONES) & !ZEROS
}
