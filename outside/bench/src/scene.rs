//! What the machines are given: a state and the memories, the code in ROM as
//! firmware is.

use second::record::LENGTH;
use second::{Machine, Width};

pub const MOST: usize = second::MOST_BYTES;

#[derive(Clone)]
pub struct Scene {
    pub machine: Machine,
    pub ram: Vec<u8>,
    pub rom: Vec<u8>,
}

impl Scene {
    /// The counter stands at the start of ROM; the long registers named by
    /// their codes are set.
    pub fn new(rom: Vec<u8>, longs: &[(u8, u32)]) -> Scene {
        let mut machine = Machine::zero();
        machine.counter = (1 << 24) - rom.len() as u32;
        machine.level = 7;
        for &(code, value) in longs {
            machine.set(Width::Long, code, value);
        }
        let ram = (0..MOST).map(byte_of_ram).collect();
        Scene { machine, ram, rom }
    }

    pub fn record(&self) -> [u8; LENGTH] {
        self.machine.to_record().expect("a valid state")
    }
}

/// No two near stretches of RAM are alike, and FEH stands nowhere. Any four
/// bytes, from an address that four divides, are an address in a full ROM, so
/// that a RET finds its way.
fn byte_of_ram(place: usize) -> u8 {
    match place % 4 {
        2 => 0xFF,
        _ => (place % 251) as u8,
    }
}
