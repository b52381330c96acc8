//! The listed codes one by one, and trials of each.

use crate::mame::{self, HIGHEST_LEVEL};
use crate::trial::{Memories, Trial, FULL, MOST_STEPS};
use draw::aim;
use draw::case::Call;
use draw::chance::Chance;
use forms::{Form, Slot};
use second::record::{self, BANK, COUNTER};
use second::Width;

/// A listed code: every byte that says what is done, and to which register, is
/// settled; constants, addresses and displacements are open.
#[derive(Clone)]
pub struct Code {
    /// The name of its form.
    pub name: &'static str,
    form: Form,
}

/// Every listed code, in the order of the forms.
pub fn listed() -> Vec<Code> {
    let all = forms::listed()
        .into_iter()
        .flat_map(|form| settled(form, 0));
    let code = |form: Form| Code {
        name: form.name,
        form,
    };
    all.map(code).collect()
}

/// A form with one byte for several from this place on, in every way.
fn settled(form: Form, place: usize) -> Vec<Form> {
    let Some(slot) = form.slots.get(place) else {
        return vec![form];
    };
    let Slot::One(bytes) = slot.clone() else {
        return settled(form, place + 1);
    };
    let one = |byte: u8| {
        let mut form = form.clone();
        form.slots[place] = Slot::One(vec![byte]);
        settled(form, place + 1)
    };
    bytes.into_iter().flat_map(one).collect()
}

/// How many things the codes of a form do, each in one size.
pub fn kinds_of(name: &str) -> usize {
    forms::named(name).kinds().len()
}

/// The forms of which some repeat.
const REPEATING: [&str; 2] = ["LDI LDIR LDD LDDR", "CPI CPIR CPD CPDR"];
/// The most steps that a repeating one is followed, but for one in so many.
const FEW_STEPS: u32 = 12;
const ONE_IN: u32 = 64;
const NOP: u8 = 0x00;
const RETI: u8 = 0x07;

/// A step of this code, somewhere in memory, from an aimed state.
pub fn aimed(chance: &mut Chance, code: Vec<u8>) -> Trial {
    let (in_ram, place) = aim::place(chance, FULL, code.len());
    let start = if in_ram { 0 } else { FULL.rom_start() };
    let counter = (start + place as u32) & 0xFF_FFFF;
    let mut record = aim::record(chance, FULL);
    aim::put_long(&mut record, COUNTER, counter);
    Trial {
        call: Call::Step,
        record,
        puts: vec![(counter, code)],
        code: None,
    }
}

impl Code {
    /// Whether it is of a form of which some repeat.
    pub fn may_repeat(&self) -> bool {
        REPEATING.contains(&self.name)
    }

    /// A step of this code in a bank.
    pub fn trial(&self, chance: &mut Chance, bank: u8) -> Trial {
        let bytes = aim::code(chance, &self.form, FULL);
        let mut trial = aimed(chance, bytes);
        trial.set_bank(bank);
        trial
    }

    /// Some steps of a repeating form in a bank. For a compare what is looked for is often
    /// among the first elements; a copy goes over its own code now and then.
    pub fn repeated(&self, chance: &mut Chance, memories: &Memories, bank: u8) -> Trial {
        let mut trial = self.trial(chance, bank);
        let (counter, code) = &trial.puts[0];
        let (counter, first) = (*counter, code[0]);
        let record = &mut trial.record;
        let most = if chance.once_in(ONE_IN) {
            MOST_STEPS
        } else {
            FEW_STEPS
        };
        if chance.below(4) < 3 {
            aim::set_word(record, aim::BC, 1 + chance.below(most) as u16);
        }
        if self.name == REPEATING[1] {
            if chance.once_in(2) {
                look_for_what_is_there(chance, memories, record, first, most);
            }
        } else if chance.once_in(4) {
            let near = counter.wrapping_add(chance.below(9)).wrapping_sub(4);
            aim::set_long(record, (first & 7) - 1, near);
        }
        trial.call = Call::Run(1 + chance.below(most));
        trial
    }
}

/// Sets A or WA to what an element at most so far from the pointer holds, on one side
/// or the other; the first byte of the code says which pointer and how large.
fn look_for_what_is_there(
    chance: &mut Chance,
    memories: &Memories,
    record: &mut [u8],
    first: u8,
    most: u32,
) {
    let pointer = aim::get_long(record, aim::place_of_long(record, first & 7));
    let (code, width) = if first < 0x90 {
        (1, Width::Byte)
    } else {
        (0, Width::Word)
    };
    let away = width.bytes() as u32 * chance.below(most);
    let at = if chance.once_in(2) {
        pointer.wrapping_add(away)
    } else {
        pointer.wrapping_sub(away)
    };
    let place = record::register(width, code, record[BANK] & 3);
    for (i, byte) in record[place].iter_mut().enumerate() {
        *byte = memories.byte(at.wrapping_add(i as u32));
    }
}

/// A request of any level that the witness can be asked with, at any mask, and a
/// step: NOP where the counter is, and NOP or RETI where the vector leads.
pub fn request(chance: &mut Chance) -> Trial {
    let level = 1 + chance.below(HIGHEST_LEVEL);
    let vector = chance.pick(&mame::vectors(level));
    let handler = aim::address(chance, FULL);
    let mut trial = aimed(chance, vec![NOP]);
    aim::set_mask(&mut trial.record, chance.below(8) as u8);
    let first = chance.pick(&[NOP, RETI]);
    trial.puts.push((handler & 0xFF_FFFF, vec![first]));
    trial.puts.push((vector, handler.to_le_bytes().to_vec()));
    trial.call = Call::Request(level, vector);
    trial
}
