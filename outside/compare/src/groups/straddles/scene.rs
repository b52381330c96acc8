//! Two memories with a place for the code that is tried.

use super::access::{Access, Kind};
use draw::aim::{self, Layout};
use draw::case::{Call, Case};
use draw::chance::Chance;
use second::record::{COUNTER, MARKS};

const PUSH_F: u8 = 0x18;
const PUSH_SR: u8 = 0x02;
const RETI: u8 = 0x07;

/// How many NOPs stand before the code.
pub const MOST_LED: u32 = 3;
/// How long a memory has to be for the code to stand in its middle, away from
/// what is tried at the ends.
pub const ROOM: usize = 64;

/// A case whose record and code are put anew for each try.
pub struct Scene {
    pub layout: Layout,
    pub case: Case,
    /// Where the code begins.
    pub home: u32,
}

impl Scene {
    /// Noise, and home in a memory that has room for it.
    pub fn new(chance: &mut Chance, layout: Layout) -> Scene {
        let in_ram = layout.ram >= ROOM && (layout.rom < ROOM || chance.once_in(2));
        let home = if in_ram {
            layout.ram / 2
        } else {
            layout.rom_start() as usize + layout.rom / 2
        };
        let mut scene = Scene {
            layout,
            case: Case {
                call: Call::Step,
                record: Vec::new(),
                ram: aim::noise(chance, layout.ram),
                rom: aim::noise(chance, layout.rom),
            },
            home: home as u32,
        };
        scene.put(scene.home - MOST_LED, &[0; MOST_LED as usize]);
        scene
    }

    /// Puts bytes from an address on, where there is memory.
    fn put(&mut self, first: u32, bytes: &[u8]) {
        for (further, &byte) in (0..).zip(bytes) {
            let at = first.wrapping_add(further) & 0xFF_FFFF;
            self.case.ram.put(at as usize, &[byte]);
            if let Some(place) = at.checked_sub(self.layout.rom_start()) {
                self.case.rom.put(place as usize, &[byte]);
            }
        }
    }

    /// Any state whose next instruction is the access, behind so many NOPs, and
    /// so many rounds before it comes to what it is aimed at. Behind the access
    /// a jump goes back to it.
    pub fn set(&mut self, chance: &mut Chance, access: &Access, led: u32, rounds: u32) {
        self.case.record = aim::record(chance, self.layout);
        if matches!(access.code[0], PUSH_F | PUSH_SR) {
            // With a mark it would be refused before the stack is looked at.
            let of_spare = self.case.record[MARKS] & 0x0C;
            aim::put_marks(&mut self.case.record, of_spare);
        }
        aim::put_long(&mut self.case.record, COUNTER, self.home - led);
        for pointer in &access.pointers {
            let before = pointer.stride.wrapping_mul(rounds);
            let at = pointer.holds.wrapping_sub(before) & 0xFF_FFFF;
            // The highest byte of a pointer is no part of an address.
            let any = chance.long();
            let highest = chance.pick(&[0, any, u32::MAX]) << 24;
            aim::set_long(&mut self.case.record, pointer.register, highest | at);
        }
        let mut code = [&access.code[..], &access.onward].concat();
        let back = (code.len() as u8 + 2).wrapping_neg();
        code.extend_from_slice(&[0x68, back]);
        self.put(self.home, &code);
        if access.kind == Kind::Return {
            // RETI pops SR first, and any will do.
            let below = if access.code[0] == RETI { 2 } else { 0 };
            for round in 1..=rounds {
                let popped = self.home.to_le_bytes();
                let first = access.first.wrapping_sub(access.size * round);
                self.put(first.wrapping_add(below), &popped);
            }
        }
    }
}
