//! What both machines are given: memories as long as they may be, a state, and
//! bytes that are put over the memories.

use draw::aim::Layout;
use draw::case::{Call, Case};
use draw::chance::Chance;
use draw::image::Image;
use second::record::{BANK, LENGTH, MARKS};

pub const MOST: usize = second::MOST_BYTES;
/// The most steps of a trial: a byte says how many to the witness.
pub const MOST_STEPS: u32 = 255;

/// The marks of F among those of a record.
const MARKS_OF_F: u8 = 3;

/// The witness has no missing memory, so both are as long as they may be.
pub const FULL: Layout = Layout {
    ram: MOST,
    rom: MOST,
};

/// The two memories under a batch of trials.
#[derive(Clone)]
pub struct Memories {
    pub ram: Image,
    pub rom: Image,
}

impl Memories {
    pub fn drawn(chance: &mut Chance) -> Memories {
        Memories {
            ram: Image::turning(MOST, chance.wide()),
            rom: Image::turning(MOST, chance.wide()),
        }
    }

    /// The byte at an address; 0 where there is no memory.
    pub fn byte(&self, address: u32) -> u8 {
        byte_at(&self.ram.bytes, &self.rom.bytes, address)
    }
}

/// The byte at an address of full memories; 0 where there is none.
pub fn byte_at(ram: &[u8], rom: &[u8], address: u32) -> u8 {
    let address = address & 0xFF_FFFF;
    let in_rom = address.checked_sub(FULL.rom_start());
    let byte = match in_rom {
        Some(place) => rom.get(place as usize),
        None => ram.get(address as usize),
    };
    byte.copied().unwrap_or(0)
}

/// A state, what is put over memory, and what is done from there: a step, some
/// steps one after another, or a request and then a step.
#[derive(Clone)]
pub struct Trial {
    pub call: Call,
    pub record: Vec<u8>,
    pub puts: Vec<(u32, Vec<u8>)>,
    /// Which of the listed codes it is drawn for, if it is for one.
    pub code: Option<usize>,
}

impl Trial {
    /// Whether it may be refused with a number: code that the end of a memory cuts, an
    /// operand that is missing, a store to ROM, a marked flag. All codes are listed; but
    /// what is put for a request may lie across its code, which can then be any.
    pub fn may_be_refused_with(&self, number: u8) -> bool {
        let any = matches!(self.call, Call::Request(..));
        match number {
            3 => any || self.code_is_cut(),
            4 => any,
            5 | 6 => true,
            8 => self.record[MARKS] & MARKS_OF_F != 0,
            _ => false,
        }
    }

    /// Whether the code that is put lies in no memory, or not wholly in one.
    fn code_is_cut(&self) -> bool {
        self.puts.iter().take(1).any(|(first, code)| {
            let end = first + code.len() as u32;
            let in_ram = end <= MOST as u32;
            let in_rom = *first >= FULL.rom_start() && end <= 1 << 24;
            !in_ram && !in_rom
        })
    }

    /// How many steps are asked for.
    pub fn steps(&self) -> u32 {
        match self.call {
            Call::Run(steps) => steps,
            _ => 1,
        }
    }

    pub fn bank(&self) -> u8 {
        self.record[BANK] & 3
    }

    pub fn set_bank(&mut self, bank: u8) {
        self.record[BANK] = self.record[BANK] & !3 | bank;
    }

    /// Every byte that is put, with its address.
    pub fn bytes_put(&self) -> impl Iterator<Item = (u32, u8)> + '_ {
        self.puts.iter().flat_map(|(address, bytes)| {
            let addresses = (0..).map(move |i| address.wrapping_add(i) & 0xFF_FFFF);
            addresses.zip(bytes.iter().copied())
        })
    }

    /// The same with everything it stands on, to be printed.
    pub fn case(&self, memories: &Memories) -> Case {
        let (mut ram, mut rom) = (memories.ram.clone(), memories.rom.clone());
        for (address, byte) in self.bytes_put() {
            match address.checked_sub(FULL.rom_start()) {
                Some(place) => rom.put(place as usize, &[byte]),
                None => ram.put(address as usize, &[byte]),
            }
        }
        Case {
            call: self.call,
            record: self.record.clone(),
            ram,
            rom,
        }
    }

    /// The trial and the memories that a printed case tells of, if it can be one here.
    pub fn of_case(case: Case) -> Option<(Memories, Trial)> {
        let full = case.ram.len() == MOST && case.rom.len() == MOST;
        let known = match case.call {
            Call::Run(steps) => steps <= MOST_STEPS,
            call => matches!(call, Call::Step | Call::Request(..)),
        };
        let trial = Trial {
            call: case.call,
            record: case.record,
            puts: Vec::new(),
            code: None,
        };
        let memories = Memories {
            ram: case.ram,
            rom: case.rom,
        };
        let whole = trial.record.len() == LENGTH;
        (full && known && whole).then_some((memories, trial))
    }
}
