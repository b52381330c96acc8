//! States, values and addresses where mistakes are likely to be.

use crate::chance::Chance;
use crate::image::{Image, TURNING};
use forms::records::MARKED;
use forms::{Form, Slot};
use second::record::{self, BANK, COUNTER, F, F_PRIME, LENGTH, MARKS, NESTING, OLD_LENGTH, ZEROS};
use second::Width;

/// The values at which arithmetic of some width turns.
pub const TURNS: [u32; 11] = [
    0,
    1,
    0x7F,
    0x80,
    0xFF,
    0x7FFF,
    0x8000,
    0xFFFF,
    0x7FFF_FFFF,
    0x8000_0000,
    0xFFFF_FFFF,
];

/// The lengths at which something about a memory changes.
pub const LENGTHS: [usize; 7] = [0, 1, 255, 256, 65_535, 65_536, 65_537];

/// The flag bits that a flag register can hold.
pub const FLAGS: u8 = 0xD7;

/// The codes of XSP and BC.
pub const XSP: u8 = 7;
pub const BC: u8 = 1;

/// How long the two memories are.
#[derive(Clone, Copy, Debug)]
pub struct Layout {
    pub ram: usize,
    pub rom: usize,
}

impl Layout {
    /// Short memories, so that most of an address's neighbours are ends.
    pub fn short(chance: &mut Chance) -> Layout {
        let mut length = || match chance.below(8) {
            0 => chance.below(8) as usize,
            1 => 255 + chance.below(3) as usize,
            _ => 16 + chance.below(240) as usize,
        };
        Layout {
            ram: length(),
            rom: length(),
        }
    }

    pub fn rom_start(self) -> u32 {
        (1 << 24) - self.rom as u32
    }
}

/// A value of any width: at a turn, near one, of turning bytes, or anything.
pub fn value(chance: &mut Chance) -> u32 {
    match chance.below(8) {
        0..=2 => chance.pick(&TURNS),
        3 => chance
            .pick(&TURNS)
            .wrapping_add(chance.below(17))
            .wrapping_sub(8),
        4..=5 => u32::from_le_bytes([(); 4].map(|()| chance.pick(&TURNING))),
        _ => chance.long(),
    }
}

/// A displacement: short more often than not, of either sign.
pub fn displacement(chance: &mut Chance) -> u16 {
    match chance.below(4) {
        0 => value(chance) as u16,
        1 => chance.long() as u16,
        _ => (chance.below(17) as u16).wrapping_sub(8),
    }
}

/// An address: inside a memory, round one of its ends, or anywhere. Its
/// highest byte, which no address has, is sometimes not zero.
pub fn address(chance: &mut Chance, layout: Layout) -> u32 {
    let round =
        |chance: &mut Chance, place: u32| place.wrapping_add(chance.below(11)).wrapping_sub(6);
    let ram = layout.ram as u32;
    let at = match chance.below(16) {
        0..=6 => chance.below(ram + 1),
        7..=8 => round(chance, ram),
        9 => round(chance, 0),
        10..=12 => layout.rom_start() + chance.below(layout.rom as u32 + 1),
        13 => round(chance, layout.rom_start()),
        14 => chance.below(0x1_0000),
        _ => chance.long(),
    };
    if chance.once_in(4) {
        at & 0xFF_FFFF | chance.long() << 24
    } else {
        at & 0xFF_FFFF
    }
}

/// An instruction of a form, its constants at turns and its addresses near
/// the ends of the memories more often than not.
pub fn code(chance: &mut Chance, form: &Form, layout: Layout) -> Vec<u8> {
    let mut constant = value(chance).to_le_bytes().into_iter();
    let mut address = address(chance, layout).to_le_bytes().into_iter();
    let mut displacement = displacement(chance).to_le_bytes().into_iter();
    let slots = form.slots.iter().map(|slot| match slot {
        Slot::One(bytes) => Some(chance.pick(bytes)),
        Slot::Constant => constant.next(),
        Slot::Address => address.next(),
        Slot::Displacement => displacement.next(),
    });
    let code: Option<Vec<u8>> = slots.collect();
    code.expect("four bytes of a constant, four of an address or two of a displacement")
}

/// Where an instruction of so many bytes begins, and whether in RAM: mostly
/// somewhere inside a memory, now and then right at its end or over it.
pub fn place(chance: &mut Chance, layout: Layout, bytes: usize) -> (bool, usize) {
    let in_ram = chance.once_in(2);
    let length = if in_ram { layout.ram } else { layout.rom };
    let room = length.saturating_sub(bytes);
    let place = match chance.below(8) {
        0 => room,
        1 => length.saturating_sub(chance.below(8) as usize),
        _ => chance.below(room as u32 + 1) as usize,
    };
    (in_ram, place)
}

/// What a long register holds: an address or a value.
pub fn long(chance: &mut Chance, layout: Layout) -> u32 {
    if chance.below(8) < 5 {
        address(chance, layout)
    } else {
        value(chance)
    }
}

/// The record of a valid state. BC of each bank is often about to end.
pub fn record(chance: &mut Chance, layout: Layout) -> Vec<u8> {
    let mut record = vec![0; LENGTH];
    for place in (0..COUNTER).step_by(4) {
        put_long(&mut record, place, long(chance, layout));
    }
    if chance.once_in(3) {
        let count = chance.pick(&[0u16, 1, 2, 3, 0xFFFF]).to_le_bytes();
        for bank in 0..4 {
            record[record::register(Width::Word, BC, bank)].copy_from_slice(&count);
        }
    }
    let counter = address(chance, layout) & 0xFF_FFFF;
    put_long(&mut record, COUNTER, counter);
    record[BANK] = 0x88 | chance.below(4) as u8 | (chance.below(8) as u8) << 4;
    draw_flags(chance, &mut record);
    draw_nesting(chance, &mut record);
    record
}

/// The record of a valid state that the old form can hold.
pub fn plain_record(chance: &mut Chance, layout: Layout) -> Vec<u8> {
    let mut record = record(chance, layout);
    record[OLD_LENGTH..].fill(0);
    record
}

/// Draws the nesting count: none, at a turn, or any.
pub fn draw_nesting(chance: &mut Chance, record: &mut [u8]) {
    let nesting = match chance.below(4) {
        0 => 0,
        1 => chance.pick(&[1, 0xFE, 0xFF, 0x100, 0x7FFF, 0x8000, 0xFFFE, 0xFFFF]),
        _ => chance.long() as u16,
    };
    set_nesting(record, nesting);
}

pub fn set_nesting(record: &mut [u8], nesting: u16) {
    record[NESTING..MARKS].copy_from_slice(&nesting.to_le_bytes());
}

pub fn nesting(record: &[u8]) -> u16 {
    u16::from_le_bytes([record[NESTING], record[NESTING + 1]])
}

/// The mask: the level of a state.
pub fn mask(record: &[u8]) -> u8 {
    record[BANK] >> 4 & 7
}

pub fn set_mask(record: &mut [u8], mask: u8) {
    record[BANK] = record[BANK] & 0x8F | mask << 4;
}

/// Draws F and F' anew, and their marks.
pub fn draw_flags(chance: &mut Chance, record: &mut [u8]) {
    record[F] = chance.byte() & FLAGS;
    record[F_PRIME] = chance.byte() & FLAGS;
    draw_marks(chance, record);
}

/// Draws marks for the flags that are 0, every other time. F and F' stay.
pub fn draw_marks(chance: &mut Chance, record: &mut [u8]) {
    let drawn = if chance.once_in(2) { chance.byte() } else { 0 };
    let may_be = |&&(_, place, flag): &&(u8, usize, u8)| record[place] & flag == 0;
    let marks = MARKED.iter().filter(may_be).map(|(mark, _, _)| mark);
    record[MARKS] = drawn & marks.sum::<u8>();
}

/// Puts these marks; what they mark becomes 0.
pub fn put_marks(record: &mut [u8], marks: u8) {
    record[MARKS] = marks;
    for (mark, place, flag) in MARKED {
        if marks & mark != 0 {
            record[place] &= !flag;
        }
    }
}

/// Breaks one of the rules on marks: a marked flag is 1, there is a mark for
/// nothing, or a byte beside them is not zero.
pub fn spoil(chance: &mut Chance, record: &mut [u8]) {
    match chance.below(3) {
        0 => {
            let (mark, place, flag) = chance.pick(&MARKED);
            record[MARKS] |= mark;
            record[place] |= flag;
        }
        1 => record[MARKS] |= 0x10 << chance.below(4),
        _ => record[chance.pick(&ZEROS)] = 1 + chance.below(255) as u8,
    }
}

/// The record of a valid state; now and then one that is nearly one.
pub fn any_record(chance: &mut Chance, layout: Layout) -> Vec<u8> {
    let mut record = record(chance, layout);
    if chance.once_in(50) {
        spoil(chance, &mut record);
    }
    record
}

pub fn put_long(record: &mut [u8], place: usize, value: u32) {
    record[place..place + 4].copy_from_slice(&value.to_le_bytes());
}

pub fn get_long(record: &[u8], place: usize) -> u32 {
    u32::from_le_bytes(record[place..place + 4].try_into().expect("four bytes"))
}

/// Where in a record the long register of this code begins, in the current
/// bank.
pub fn place_of_long(record: &[u8], code: u8) -> usize {
    record::register(Width::Long, code, record[BANK] & 3).start
}

/// Sets the long register of this code, in the current bank.
pub fn set_long(record: &mut [u8], code: u8, value: u32) {
    put_long(record, place_of_long(record, code), value);
}

/// Sets the word register of this code, in the current bank.
pub fn set_word(record: &mut [u8], code: u8, value: u16) {
    let place = record::register(Width::Word, code, record[BANK] & 3);
    record[place].copy_from_slice(&value.to_le_bytes());
}

/// Noise that a case can name.
pub fn noise(chance: &mut Chance, length: usize) -> Image {
    Image::noise(length, chance.wide() >> 32 | 1)
}
