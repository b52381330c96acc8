//! Reset, and what document 01's program prints.

use crate::execute::run;
use crate::machine::{address, Machine, XSP};
use crate::memory::check_lengths;
use crate::number;
use crate::width::{gather, Width};

/// How far below the top of ROM the reset vector lies (FFFF00H).
const VECTOR_DEPTH: usize = 256;

const PROGRAM_IMAGE: usize = 32_768;
const PROGRAM_RAM: usize = 4_096;
const PROGRAM_STEPS: u32 = 1_000;

/// The state after reset and 0; or the all-zero state and 1 if a memory is
/// too long, 5 if ROM does not reach down to the reset vector.
pub fn reset(ram: &[u8], rom: &[u8]) -> (Machine, u8) {
    if let Err(number) = check_lengths(ram, rom) {
        return (Machine::zero(), number);
    }
    if rom.len() < VECTOR_DEPTH {
        return (Machine::zero(), number::MISSING);
    }
    let vector = rom.len() - VECTOR_DEPTH;
    let mut machine = Machine::zero();
    machine.counter = address(i64::from(gather(&rom[vector..vector + 4])));
    machine.level = 7;
    machine.set(Width::Long, XSP, 0x100);
    (machine, number::DONE)
}

/// The whole line, line feed included, that document 01's program prints for
/// a ROM image.
pub fn line(image: &[u8]) -> String {
    if image.len() > PROGRAM_IMAGE {
        return refused(number::TOO_LONG);
    }
    let mut ram = [0; PROGRAM_RAM];
    let (mut machine, number) = reset(&ram, image);
    if number != number::DONE {
        return refused(number);
    }
    let (steps, number, _) = run(&mut machine, &mut ram, image, PROGRAM_STEPS);
    let counter = machine.counter;
    let status = machine.status();
    let registers: String = (0..8)
        .map(|code| format!(" {:08X}", machine.get(Width::Long, code)))
        .collect();
    format!("{steps} {number} {counter:06X} {status:04X}{registers}\n")
}

fn refused(number: u8) -> String {
    format!("0 {number}\n")
}
