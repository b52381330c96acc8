//! What the tests share.
#![allow(dead_code)] // not every test file uses everything

use forms::marks;
use second::record::{BANK, F, F_PRIME, LENGTH, MARKS, NESTING};
use second::{request, step, Machine, Marks, Width};

/// Codes of registers.
pub const A: u8 = 1;
pub const WA: u8 = 0;
pub const BC: u8 = 1;
pub const XWA: u8 = 0;
pub const XBC: u8 = 1;
pub const XDE: u8 = 2;
pub const XHL: u8 = 3;
pub const XIX: u8 = 4;
pub const XIY: u8 = 5;
pub const XSP: u8 = 7;

/// The lengths at which something about a memory changes.
pub const LENGTHS: [usize; 7] = [0, 1, 255, 256, 65_535, 65_536, 65_537];

/// A state with its counter at an address and some long registers set.
pub fn at(counter: u32, longs: &[(u8, u32)]) -> Machine {
    let mut machine = Machine::zero();
    machine.counter = counter;
    for &(code, value) in longs {
        machine.set(Width::Long, code, value);
    }
    machine
}

/// The first address of a ROM.
pub fn rom_start(rom: &[u8]) -> u32 {
    (0x100_0000 - rom.len()) as u32
}

/// A memory of this length that begins with these bytes.
pub fn memory(length: usize, beginning: &[u8]) -> Vec<u8> {
    let mut bytes = vec![0; length];
    bytes[..beginning.len()].copy_from_slice(beginning);
    bytes
}

/// Whether an address may come with a number. What is missing is in neither
/// memory, or it is 000000H after the top of ROM; a store to ROM is there;
/// and any other number has nothing to say.
fn address_fits(number: u8, at: u32, ram: &[u8], rom: &[u8]) -> bool {
    let in_ram = (at as usize) < ram.len();
    let in_rom = (rom_start(rom)..0x100_0000).contains(&at);
    match number {
        5 => at == 0 || at < 0x100_0000 && !in_ram && !in_rom,
        6 => in_rom,
        _ => at == 0,
    }
}

/// Steps once, and gives the number alone.
pub fn step_once(machine: &mut Machine, ram: &mut [u8], rom: &[u8]) -> u8 {
    step_at(machine, ram, rom).0
}

/// Steps once, and checks that a refusal changes nothing at all and that the
/// address fits the number.
pub fn step_at(machine: &mut Machine, ram: &mut [u8], rom: &[u8]) -> (u8, u32) {
    let state_before = machine.clone();
    let ram_before = ram.to_vec();
    let (number, at) = step(machine, ram, rom);
    assert!(address_fits(number, at, ram, rom), "{number} at {at:06X}");
    if number == 0 {
        assert!(machine.valid());
    } else {
        assert_eq!(*machine, state_before, "a refusal changed the state");
        assert!(ram == ram_before, "a refusal changed RAM");
    }
    (number, at)
}

/// A push of flags, with each of these values of XSP: it ends so where no flag of
/// F is marked. Where one is, it is 8 before the stack's 5 and 6. The marks of F'
/// do not count.
pub fn push_of_flags(code: u8, pointers: &[(u32, (u8, u32))]) {
    let rom = memory(16, &[code]);
    for &(pointer, ended) in pointers {
        for bits in marks::ALL {
            let mut machine = at(rom_start(&rom), &[(XSP, pointer)]);
            machine.marks = Marks::from_bits(bits);
            machine.marks_prime = Marks::from_bits(bits >> 2);
            let wanted = if bits & 3 != 0 { (8, 0) } else { ended };
            let mut ram = memory(0x20, &[]);
            let label = format!("XSP {pointer:08X}, marks {bits:X}");
            assert_eq!(step_at(&mut machine, &mut ram, &rom), wanted, "{label}");
        }
    }
}

/// Offers a request, and checks that one which is not taken changes nothing at
/// all and that the address fits the number.
pub fn offer(
    machine: &mut Machine,
    ram: &mut [u8],
    rom: &[u8],
    level: u32,
    vector: u32,
) -> (bool, u8, u32) {
    let state_before = machine.clone();
    let ram_before = ram.to_vec();
    let (taken, number, at) = request(machine, ram, rom, level, vector);
    assert!(address_fits(number, at, ram, rom), "{number} at {at:06X}");
    if taken {
        assert_eq!((number, at), (0, 0));
        assert!(machine.valid());
    } else {
        assert_eq!(*machine, state_before, "the state changed");
        assert!(ram == ram_before, "RAM changed");
    }
    (taken, number, at)
}

/// Numbers that are always the same ones, spread over all 32 bits.
pub struct Chance(pub u64);

impl Chance {
    pub fn next(&mut self) -> u32 {
        self.0 = self
            .0
            .wrapping_mul(6_364_136_223_846_793_005)
            .wrapping_add(1_442_695_040_888_963_407);
        (self.0 >> 32) as u32
    }

    pub fn byte(&mut self) -> u8 {
        (self.next() >> 13) as u8
    }

    pub fn below(&mut self, bound: u32) -> u32 {
        ((u64::from(self.next()) * u64::from(bound)) >> 32) as u32
    }
}

/// Draws what a record says of its flags, with this bank current: a valid one.
pub fn draw_flags(chance: &mut Chance, record: &mut [u8; LENGTH], bank: u8) {
    record[BANK] = 0x88 + bank + 16 * (chance.byte() & 7);
    // A marked flag is 0.
    record[MARKS] = chance.byte() & 0x0F;
    let zero = |marks: u8| Marks::from_bits(marks).flags();
    record[F] = chance.byte() & 0xD7 & !zero(record[MARKS] & 3);
    record[F_PRIME] = chance.byte() & 0xD7 & !zero(record[MARKS] >> 2);
    record[NESTING] = chance.byte();
}

/// Steps code at address 0 from a record: the number, and the record after.
pub fn step_from(record: [u8; LENGTH], code: &[u8]) -> (u8, [u8; LENGTH]) {
    let mut machine = Machine::from_record(&record).unwrap();
    let mut ram = code.to_vec();
    let number = step_once(&mut machine, &mut ram, &[]);
    assert_eq!(ram, code, "RAM changed");
    (number, machine.to_record().unwrap())
}
