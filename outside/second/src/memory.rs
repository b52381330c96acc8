//! RAM at the bottom of the addresses, ROM at the top, nothing between.

use crate::decode::decode;
use crate::machine::{address, ADDRESSES};
use crate::number;
use crate::refusal::Refusal;
use crate::width::{gather, scatter, Width};
use std::ops::Range;

/// How many bytes each memory may have.
pub const MOST_BYTES: usize = 65_536;

/// One of the two memories.
#[derive(Clone, Copy, Debug, PartialEq, Eq)]
enum Memory {
    Ram,
    Rom,
}

/// Bytes that lie wholly in one of the memories, as places in it.
#[derive(Clone, Debug, PartialEq, Eq)]
struct Part {
    memory: Memory,
    places: Range<usize>,
}

/// The memory that holds the byte at an address below 2^24, and its place
/// there.
fn holder(ram: &[u8], rom: &[u8], at: u32) -> Option<(Memory, usize)> {
    let place = at as usize;
    let rom_first = ADDRESSES as usize - rom.len();
    if place < ram.len() {
        Some((Memory::Ram, place))
    } else if place >= rom_first {
        Some((Memory::Rom, place - rom_first))
    } else {
        None
    }
}

/// Finds `size` bytes (at least one) from an address on, one by one; after
/// FFFFFFH comes 000000H. If they are missing, the address that says where:
/// the first byte's if neither memory holds that, and otherwise that of the
/// first byte which is not in the first one's memory.
fn find(ram: &[u8], rom: &[u8], first: u32, size: usize) -> Result<Part, u32> {
    let (memory, place) = holder(ram, rom, first).ok_or(first)?;
    for further in 1..size {
        let at = address(i64::from(first) + further as i64);
        let other = holder(ram, rom, at).map(|(memory, _)| memory);
        if other != Some(memory) {
            return Err(at);
        }
    }
    Ok(Part {
        memory,
        places: place..place + size,
    })
}

/// Both memories, as a step sees them.
pub(crate) struct Memories<'a> {
    pub ram: &'a mut [u8],
    pub rom: &'a [u8],
}

impl Memories<'_> {
    /// The operand that begins at an address; 5 if it is missing.
    pub fn read(&self, first: u32, width: Width) -> Result<u32, Refusal> {
        Ok(gather(self.bytes(first, width.bytes())?))
    }

    /// An operand of any size, as its bytes.
    pub fn bytes(&self, first: u32, size: usize) -> Result<&[u8], Refusal> {
        let part = self.operand(first, size)?;
        Ok(match part.memory {
            Memory::Ram => &self.ram[part.places],
            Memory::Rom => &self.rom[part.places],
        })
    }

    /// Stores a value from an address on; 5 if there is no room for it, 6 if
    /// it is ROM, and then at the first byte.
    pub fn store(&mut self, first: u32, width: Width, value: u32) -> Result<(), Refusal> {
        let mut bytes = [0; 4];
        let bytes = &mut bytes[..width.bytes()];
        scatter(value, bytes);
        self.store_bytes(first, bytes)
    }

    /// Stores an operand of any size, given as its bytes.
    pub fn store_bytes(&mut self, first: u32, bytes: &[u8]) -> Result<(), Refusal> {
        let part = self.operand(first, bytes.len())?;
        match part.memory {
            Memory::Ram => {
                self.ram[part.places].copy_from_slice(bytes);
                Ok(())
            }
            Memory::Rom => Err(Refusal {
                number: number::INTO_ROM,
                at: first,
            }),
        }
    }

    fn operand(&self, first: u32, size: usize) -> Result<Part, Refusal> {
        find(self.ram, self.rom, first, size).map_err(|at| Refusal {
            number: number::MISSING,
            at,
        })
    }
}

/// Number 1 if either memory is too long.
pub(crate) fn check_lengths(ram: &[u8], rom: &[u8]) -> Result<(), u8> {
    if ram.len() > MOST_BYTES || rom.len() > MOST_BYTES {
        Err(number::TOO_LONG)
    } else {
        Ok(())
    }
}

/// Everything from an address to the end of the memory that holds it:
/// the bytes an instruction there may have. Empty if nothing is there.
pub(crate) fn code_from<'a>(ram: &'a [u8], rom: &'a [u8], address: u32) -> &'a [u8] {
    match holder(ram, rom, address) {
        Some((Memory::Ram, place)) => &ram[place..],
        Some((Memory::Rom, place)) => &rom[place..],
        None => &[],
    }
}

/// The bytes of the instruction at an address, as a part of the memory that
/// holds them, and the number: 1, 2 for an address of 2^24 or more, 3, 4 or
/// 0. The length of the instruction is the length of the part; a refusal
/// shows the empty beginning of ROM.
pub fn show<'a>(ram: &'a [u8], rom: &'a [u8], at: u32) -> (&'a [u8], u8) {
    match instruction_bytes(ram, rom, at) {
        Ok(bytes) => (bytes, number::DONE),
        Err(number) => (&rom[..0], number),
    }
}

fn instruction_bytes<'a>(ram: &'a [u8], rom: &'a [u8], at: u32) -> Result<&'a [u8], u8> {
    check_lengths(ram, rom)?;
    if i64::from(at) >= ADDRESSES {
        return Err(number::NOT_VALID);
    }
    let code = code_from(ram, rom, at);
    let (_, length) = decode(code)?;
    Ok(&code[..length])
}

#[cfg(test)]
mod tests {
    use super::*;

    /// The operands that are missing, worked by hand: how long RAM and ROM
    /// are, the operand's first byte and its size, and the address.
    const MISSING: &[(usize, usize, u32, usize, u32)] = &[
        // The first byte is in neither memory.
        (0x100, 0x100, 0x00_0100, 1, 0x00_0100),
        (0x100, 0x100, 0x00_0101, 2, 0x00_0101),
        (0x100, 0x100, 0x80_0000, 1, 0x80_0000),
        (0x100, 0x100, 0x80_0000, 2, 0x80_0000),
        (0x100, 0x100, 0x80_0000, 4, 0x80_0000),
        (0x100, 0x100, 0xFF_FEFF, 1, 0xFF_FEFF),
        // Over the end of RAM: a word with 1 byte inside, a long with 3, 2, 1.
        (0x100, 0x100, 0x00_00FF, 2, 0x00_0100),
        (0x100, 0x100, 0x00_00FD, 4, 0x00_0100),
        (0x100, 0x100, 0x00_00FE, 4, 0x00_0100),
        (0x100, 0x100, 0x00_00FF, 4, 0x00_0100),
        // RAM is shorter than the operand.
        (1, 0x100, 0x00_0000, 2, 0x00_0001),
        (1, 0x100, 0x00_0000, 4, 0x00_0001),
        (2, 0x100, 0x00_0000, 4, 0x00_0002),
        (3, 0x100, 0x00_0000, 4, 0x00_0003),
        // Over the start of ROM from below: the first byte is in neither.
        (0x100, 0x100, 0xFF_FEFF, 2, 0xFF_FEFF),
        (0x100, 0x100, 0xFF_FEFD, 4, 0xFF_FEFD),
        (0x100, 0x100, 0xFF_FEFE, 4, 0xFF_FEFE),
        (0x100, 0x100, 0xFF_FEFF, 4, 0xFF_FEFF),
        // Over the top from ROM, with RAM at 000000H and with nothing there.
        (0x100, 0x100, 0xFF_FFFF, 2, 0x00_0000),
        (0x100, 0x100, 0xFF_FFFD, 4, 0x00_0000),
        (0x100, 0x100, 0xFF_FFFE, 4, 0x00_0000),
        (0x100, 0x100, 0xFF_FFFF, 4, 0x00_0000),
        (0, 0x100, 0xFF_FFFF, 2, 0x00_0000),
        (0, 0x100, 0xFF_FFFD, 4, 0x00_0000),
        // Over the top, with no ROM there: the first byte is in neither.
        (0x100, 0, 0xFF_FFFF, 1, 0xFF_FFFF),
        (0x100, 0, 0xFF_FFFF, 2, 0xFF_FFFF),
        (0x100, 0, 0xFF_FFFD, 4, 0xFF_FFFD),
        // Over the start of ROM and over the top.
        (0x100, 1, 0xFF_FFFE, 4, 0xFF_FFFE),
        (0x100, 2, 0xFF_FFFD, 4, 0xFF_FFFD),
        (0x100, 1, 0xFF_FFFF, 4, 0x00_0000),
        (0x100, 2, 0xFF_FFFE, 4, 0x00_0000),
        // No RAM.
        (0, 0x100, 0x00_0000, 1, 0x00_0000),
        (0, 0x100, 0x00_0000, 4, 0x00_0000),
        (0, 0x100, 0x00_0001, 2, 0x00_0001),
        (0, 0x100, 0xFF_FEFE, 4, 0xFF_FEFE),
        // Neither memory.
        (0, 0, 0x00_0000, 1, 0x00_0000),
        (0, 0, 0x12_3456, 2, 0x12_3456),
        (0, 0, 0xFF_FFFF, 1, 0xFF_FFFF),
        (0, 0, 0xFF_FFFF, 4, 0xFF_FFFF),
        // Six bytes, as a request pushes them: over the end of RAM with 5 to 1
        // inside, behind it, over the start of ROM and over the top.
        (0x100, 0x100, 0x00_00FB, 6, 0x00_0100),
        (0x100, 0x100, 0x00_00FC, 6, 0x00_0100),
        (0x100, 0x100, 0x00_00FD, 6, 0x00_0100),
        (0x100, 0x100, 0x00_00FE, 6, 0x00_0100),
        (0x100, 0x100, 0x00_00FF, 6, 0x00_0100),
        (0x100, 0x100, 0x00_0100, 6, 0x00_0100),
        (5, 0x100, 0x00_0000, 6, 0x00_0005),
        (0x100, 0x100, 0xFF_FEFB, 6, 0xFF_FEFB),
        (0x100, 0x100, 0xFF_FEFF, 6, 0xFF_FEFF),
        (0x100, 0x100, 0xFF_FFFB, 6, 0x00_0000),
        (0x100, 0x100, 0xFF_FFFF, 6, 0x00_0000),
        (0x100, 5, 0xFF_FFFB, 6, 0x00_0000),
        (0x100, 5, 0xFF_FFFA, 6, 0xFF_FFFA),
        (0x100, 0, 0xFF_FFFB, 6, 0xFF_FFFB),
        (0x1_0000, 0x1_0000, 0x00_FFFB, 6, 0x01_0000),
        // As much RAM as there may be, and as much ROM.
        (0x1_0000, 0x1_0000, 0x00_FFFF, 2, 0x01_0000),
        (0x1_0000, 0x1_0000, 0x00_FFFD, 4, 0x01_0000),
        (0x1_0000, 0x1_0000, 0x00_FFFE, 4, 0x01_0000),
        (0x1_0000, 0x1_0000, 0x00_FFFF, 4, 0x01_0000),
        (0x1_0000, 0x1_0000, 0x01_0000, 1, 0x01_0000),
        (0x1_0000, 0x1_0000, 0xFE_FFFF, 2, 0xFE_FFFF),
        (0x1_0000, 0x1_0000, 0xFF_FFFF, 2, 0x00_0000),
    ];

    #[test]
    fn where_an_operand_is_missing() {
        for &(ram, rom, first, size, at) in MISSING {
            let found = find(&vec![0; ram], &vec![0; rom], first, size);
            let row = format!("{size} bytes at {first:06X}, RAM {ram}, ROM {rom}");
            assert_eq!(found, Err(at), "{row}");
        }
    }

    /// The operands that are there, up to the last byte of each memory.
    #[test]
    fn where_an_operand_is() {
        for (ram, rom, first, size, memory, place) in [
            (1, 0, 0x00_0000, 1, Memory::Ram, 0),
            (0x100, 0x100, 0x00_00FF, 1, Memory::Ram, 0xFF),
            (0x100, 0x100, 0x00_00FE, 2, Memory::Ram, 0xFE),
            (0x100, 0x100, 0x00_00FC, 4, Memory::Ram, 0xFC),
            (0x100, 0x100, 0x00_00FA, 6, Memory::Ram, 0xFA),
            (6, 0x100, 0x00_0000, 6, Memory::Ram, 0),
            (0x1_0000, 0, 0x00_FFFC, 4, Memory::Ram, 0xFFFC),
            (0, 1, 0xFF_FFFF, 1, Memory::Rom, 0),
            (0x100, 0x100, 0xFF_FF00, 4, Memory::Rom, 0),
            (0x100, 0x100, 0xFF_FFFF, 1, Memory::Rom, 0xFF),
            (0x100, 0x100, 0xFF_FFFE, 2, Memory::Rom, 0xFE),
            (0x100, 0x100, 0xFF_FFFC, 4, Memory::Rom, 0xFC),
            (0x100, 0x100, 0xFF_FFFA, 6, Memory::Rom, 0xFA),
            (0x100, 6, 0xFF_FFFA, 6, Memory::Rom, 0),
            (0, 0x1_0000, 0xFF_0000, 4, Memory::Rom, 0),
        ] {
            let places = place..place + size;
            let found = find(&vec![0; ram], &vec![0; rom], first, size);
            assert_eq!(found, Ok(Part { memory, places }), "{first:06X}");
        }
    }

    /// A store that is all in ROM is refused at its first byte; one that is
    /// only partly there is missing, as a read is.
    #[test]
    fn where_a_store_is_refused() {
        for (first, width, number, at) in [
            (0xFF_FF00, Width::Byte, 6, 0xFF_FF00),
            (0xFF_FF00, Width::Word, 6, 0xFF_FF00),
            (0xFF_FF00, Width::Long, 6, 0xFF_FF00),
            (0xFF_FF81, Width::Word, 6, 0xFF_FF81),
            (0xFF_FFFF, Width::Byte, 6, 0xFF_FFFF),
            (0xFF_FFFE, Width::Word, 6, 0xFF_FFFE),
            (0xFF_FFFC, Width::Long, 6, 0xFF_FFFC),
            (0xFF_FFFF, Width::Word, 5, 0x00_0000),
            (0xFF_FFFD, Width::Long, 5, 0x00_0000),
            (0xFF_FEFF, Width::Word, 5, 0xFF_FEFF),
            (0x00_00FF, Width::Word, 5, 0x00_0100),
        ] {
            let (mut ram, rom) = ([0x11; 0x100], [0x22; 0x100]);
            let mut memories = Memories {
                ram: &mut ram,
                rom: &rom,
            };
            let refused = memories.store(first, width, 0x3333_3333);
            assert_eq!(refused, Err(Refusal { number, at }), "{first:06X}");
            assert_eq!(ram, [0x11; 0x100]);
        }
    }
}
