//! Listed operations, each so prepared that it is done.

use draw::aim::{self, Layout, XSP};
use draw::case::{Call, Case};
use draw::chance::Chance;
use forms::{Form, Slot};
use second::record::COUNTER;

/// RAM reaches as far on both sides of its middle as a displacement does.
pub const LAYOUT: Layout = Layout {
    ram: 0x140,
    rom: 0x40,
};
pub const MIDDLE: u32 = 0xA0;
/// Where the code stands in ROM.
const PLACE: usize = 0x10;

/// Everything listed, in each size, that goes on to the next instruction and is
/// not PUSH F or PUSH SR: these read the marks, and come behind.
pub fn operations() -> Vec<Form> {
    let mut kinds: Vec<Form> = forms::listed().iter().flat_map(Form::kinds).collect();
    let elsewhere = [0x02, 0x07, 0x0E, 0x18, 0x1A, 0x1B, 0x1C, 0x1D, 0x1E];
    let jumps = |first: u8| elsewhere.contains(&first) || (0x60..=0x7F).contains(&first);
    kinds.retain(|kind| match &kind.slots[0] {
        Slot::One(bytes) => !bytes.iter().any(|&first| jumps(first)),
        _ => true,
    });
    kinds
}

/// A step of an operation, and its code.
pub struct Prepared {
    pub case: Case,
    pub code: Vec<u8>,
}

/// Any state with these marks, at an operation whose operand is in RAM.
pub fn prepared(chance: &mut Chance, operation: &Form, marks: u8) -> Prepared {
    let code = code(chance, operation);
    let mut case = Case {
        call: Call::Step,
        record: aim::record(chance, LAYOUT),
        ram: aim::noise(chance, LAYOUT.ram),
        rom: aim::noise(chance, LAYOUT.rom),
    };
    aim::put_marks(&mut case.record, marks);
    for register in pointers(&code) {
        let highest = chance.long() << 24;
        let near = MIDDLE + chance.below(8);
        aim::set_long(&mut case.record, register, highest | near);
    }
    case.rom.put(PLACE, &code);
    let counter = LAYOUT.rom_start() + PLACE as u32;
    aim::put_long(&mut case.record, COUNTER, counter);
    Prepared { case, code }
}

/// Code with its address in RAM.
fn code(chance: &mut Chance, operation: &Form) -> Vec<u8> {
    let mut address = (MIDDLE + chance.below(8)).to_le_bytes().into_iter();
    let mut constant = aim::value(chance).to_le_bytes().into_iter();
    let slots = operation.slots.iter().map(|slot| match slot {
        Slot::One(bytes) => chance.pick(bytes),
        Slot::Address => address.next().expect("four bytes of an address"),
        Slot::Constant => constant.next().expect("four bytes of a constant"),
        Slot::Displacement => chance.byte(),
    });
    slots.collect()
}

/// The registers that an operation comes to memory by: XSP, R of a memory form,
/// and the others of a copy.
fn pointers(code: &[u8]) -> Vec<u8> {
    match code {
        [first @ 0x80..=0x9F, 0x10..=0x13] => vec![XSP, first & 7, (first & 7) - 1],
        [first @ 0x80..=0xBF, ..] => vec![XSP, first & 7],
        _ => vec![XSP],
    }
}
