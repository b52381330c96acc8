//! Sums, logic, counts and shifts on the values at which they turn.

use super::Bench;
use draw::aim::{self, FLAGS, TURNS};
use draw::case::{Call, Case};
use draw::image::Image;
use second::record::{self, F};
use second::{Machine, Width};

const WIDTHS: [Width; 3] = [Width::Byte, Width::Word, Width::Long];

/// Where RAM holds an operand, and the register that points at it.
const OPERAND_PLACE: usize = 0x20;
const POINTER: u8 = 4;
/// The code of WA, which is A and W together.
const WA: u8 = 0;

/// The first byte of a register form with register 0, by width.
fn register_form(width: Width) -> u8 {
    match width {
        Width::Byte => 0xC8,
        Width::Word => 0xD8,
        Width::Long => 0xE8,
    }
}

/// The first byte of (R) with register 0, by width.
fn memory_form(width: Width) -> u8 {
    match width {
        Width::Byte => 0x80,
        Width::Word => 0x90,
        Width::Long => 0xA0,
    }
}

/// A step at the start of RAM; which flags are marked, and the nesting count, is
/// drawn.
fn hold_step(bench: &mut Bench, machine: &Machine, code: &[u8], operand: u32) {
    let mut case = step_of(machine, code, operand);
    aim::draw_marks(&mut bench.chance, &mut case.record);
    aim::draw_nesting(&mut bench.chance, &mut case.record);
    bench.judge.hold(&case);
}

fn step_of(machine: &Machine, code: &[u8], operand: u32) -> Case {
    let mut ram = Image::zeros(0x40);
    ram.put(0, code);
    ram.put(OPERAND_PLACE, &operand.to_le_bytes());
    Case {
        call: Call::Step,
        record: machine.to_record().expect("a valid state").to_vec(),
        ram,
        rom: Image::zeros(0),
    }
}

/// Each of the eight operations on every pair of bytes, with and without
/// carry: A with W.
pub fn all_byte_pairs(bench: &mut Bench) {
    for operation in 0..8 {
        let code = [0xC9, 0x80 + 16 * operation];
        let both = record::register(Width::Word, WA, 0);
        let mut case = step_of(&Machine::zero(), &[], 0);
        case.ram = Image::of(&code);
        aim::draw_nesting(&mut bench.chance, &mut case.record);
        for carry in [0, 1] {
            for pair in 0..=0xFFFF_u16 {
                case.record[both.clone()].copy_from_slice(&pair.to_le_bytes());
                case.record[F] = carry | bench.chance.byte() & FLAGS & 0xFE;
                aim::draw_marks(&mut bench.chance, &mut case.record);
                bench.judge.hold(&case);
            }
        }
        if bench.judge.weary() {
            return;
        }
    }
}

/// Each operation at each width on every pair of turning values: register
/// with register, register with constant, both ways with memory.
pub fn turning_values(bench: &mut Bench) {
    for width in WIDTHS {
        for operation in 0..8 {
            for left in TURNS {
                for right in TURNS {
                    for carry in [0, 1] {
                        pair(bench, width, operation, (left, right), carry);
                    }
                }
            }
            if bench.judge.weary() {
                return;
            }
        }
    }
}

fn pair(bench: &mut Bench, width: Width, operation: u8, (left, right): (u32, u32), carry: u8) {
    // W, WA or XWA stands left; H, HL or XHL right: no two of them overlap.
    let (r, other) = (0, if width == Width::Byte { 6 } else { 3 });
    let mut machine = Machine::zero();
    machine.f = carry | bench.chance.byte() & FLAGS & 0xFE;
    machine.set(width, r, left);
    machine.set(width, other, right);
    machine.set(Width::Long, POINTER, OPERAND_PLACE as u32);
    let first = register_form(width);
    let along = 16 * operation;

    let with_register = [first + other, 0x80 + along + r];
    let mut with_constant = vec![first + r, 0xC8 + operation];
    with_constant.extend_from_slice(&right.to_le_bytes()[..width.bytes()]);
    let with_memory = [memory_form(width) + POINTER, 0x80 + along + r];
    let to_memory = [memory_form(width) + POINTER, 0x88 + along + other];
    let itself = [first + r, 0x80 + along + r];

    for code in [&with_register[..], &with_constant, &itself] {
        hold_step(bench, &machine, code, 0);
    }
    hold_step(bench, &machine, &with_memory, right);
    hold_step(bench, &machine, &to_memory, left);
}

/// INC, DEC, shifts, extensions and loads: all byte values, turning values
/// and drawn ones of the wider widths.
pub fn one_operand(bench: &mut Bench) {
    for width in WIDTHS {
        let values: Vec<u32> = match width {
            Width::Byte => (0..=255).collect(),
            _ => {
                let drawn = 1_500 * bench.rounds;
                let drawn = (0..drawn).map(|_| aim::value(&mut bench.chance));
                TURNS.into_iter().chain(drawn).collect()
            }
        };
        for value in values {
            one_value(bench, width, value);
            if bench.judge.weary() {
                return;
            }
        }
    }
}

fn one_value(bench: &mut Bench, width: Width, value: u32) {
    let register = bench.chance.below(8) as u8;
    let mut machine = Machine::zero();
    machine.bank = bench.chance.below(4) as u8;
    machine.set(width, register, value);
    let first = register_form(width) + register;
    let mut codes: Vec<Vec<u8>> = (0x60..=0x6F).map(|count| vec![first, count]).collect();
    for shift in 0xEC..=0xEF {
        codes.extend((0..=0x10).map(|places| vec![first, shift, places]));
    }
    codes.extend([0x12, 0x13].map(|extension| vec![first, extension]));
    codes.extend((0..8).flat_map(|other| [vec![first, 0x88 + other], vec![first, 0x98 + other]]));
    for code in codes {
        machine.f = bench.chance.byte() & FLAGS;
        hold_step(bench, &machine, &code, 0);
    }
}
