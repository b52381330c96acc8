//! Requests among steps: between the instructions of a program, and between the
//! rounds of repeating copies and compares.

use super::super::blocks::{block_forms, repeating_code};
use super::super::Bench;
use super::{offer, FRAME, TOP, VECTOR};
use draw::aim::{self, Layout, BC, XSP};
use draw::case::{Call, Case};
use draw::chance::Chance;
use draw::image::Image;
use forms::{requests, Form};
use second::record::COUNTER;
use second::{Machine, Width};
use std::collections::BTreeSet;

const LAYOUT: Layout = Layout { ram: 256, rom: 256 };
/// Where the handlers stand in ROM, and how many bytes each has; where their
/// vectors are; where the program begins.
const HANDLERS: usize = 8;
const HANDLER_SIZE: usize = 8;
const VECTORS: usize = HANDLERS * HANDLER_SIZE;
const PROGRAM: usize = VECTORS + HANDLERS * VECTOR;

/// What handlers do before RETI. None changes a register for good, and none is
/// refused, whatever is marked. (EX F,F' twice would not do: RETI of a request
/// between the two clears marks that are then brought back to F'.)
const DEEDS: [&[u8]; 10] = [
    &[],
    &[0x00],                   // NOP
    &[0x06, 0x00],             // EI 0
    &[0x06, 0x07],             // EI 7
    &[0x0C, 0x0C],             // INCF, twice
    &[0x17, 0x03],             // LDF 3
    &[0xC9, 0xF1, 0x02, 0x03], // CP A,A; PUSH SR; POP SR
    &[0x39, 0xE8, 0xC1, 0x59], // PUSH XBC; AND XBC,XWA; POP XBC
    &[0x12, 0x38, 0x58],       // CCF; PUSH XWA; POP XWA
    &[0x11, 0x0D],             // SCF; DECF
];

/// Puts handlers in ROM, and their vectors behind them.
fn put_handlers(chance: &mut Chance, rom: &mut Image) {
    for handler in 0..HANDLERS {
        let place = handler * HANDLER_SIZE;
        rom.put(place, &[chance.pick(&DEEDS), &[0x07]].concat());
        let mut vector = (TOP - rom.len() as u32 + place as u32).to_le_bytes();
        // The highest byte of a vector plays no part.
        vector[3] = chance.byte();
        rom.put(VECTORS + handler * VECTOR, &vector);
    }
}

/// The address of one of the vectors.
fn a_vector(chance: &mut Chance, rom: &Image) -> u32 {
    let place = VECTORS + VECTOR * chance.below(HANDLERS as u32) as usize;
    TOP - rom.len() as u32 + place as u32
}

/// Programs of listed instructions, with requests offered between their steps and
/// in the handlers: every level at every mask. A refused instruction is left by a
/// jump.
pub fn between_steps(bench: &mut Bench) {
    let forms = forms::listed();
    let (mut deepest, mut offered) = (0, BTreeSet::new());
    for _ in 0..600 * bench.rounds {
        let mut case = program(&mut bench.chance, &forms);
        let mut depth = 0_i32;
        for _ in 0..100 {
            depth += a_turn(bench, &mut case, &mut offered);
            deepest = deepest.max(depth);
        }
        if bench.judge.weary() {
            return;
        }
    }
    bench.judge.expect(deepest > 3, || {
        format!("no request was deeper than {deepest} in others")
    });
    for (mask, level) in (0..8).flat_map(|mask| requests::LEVELS.map(move |level| (mask, level))) {
        bench.judge.expect(offered.contains(&(mask, level)), || {
            format!("level {level} was never offered at mask {mask}")
        });
    }
}

/// One request, and then a few steps or none. The mask and the level are noted.
/// By how many more requests were taken than RETIs done.
pub fn a_turn(bench: &mut Bench, case: &mut Case, offered: &mut BTreeSet<(u8, u32)>) -> i32 {
    let before = aim::nesting(&case.record);
    let chance = &mut bench.chance;
    let level = chance.below(8);
    let vector = match chance.below(16) {
        0 => aim::address(chance, LAYOUT),
        _ => a_vector(chance, &case.rom),
    };
    if chance.once_in(12) {
        // Back to a stack in RAM, and to a mask that lets more through.
        aim::set_long(&mut case.record, XSP, 0x80 + chance.below(0x70));
        aim::set_mask(&mut case.record, chance.below(4) as u8);
    }
    offered.insert((aim::mask(&case.record), level));
    offer(bench, case, level, vector);
    case.call = match bench.chance.below(4) {
        0 => Call::Run(bench.chance.below(6)),
        _ => Call::Step,
    };
    let answer = bench.judge.hold_and_carry(case);
    if answer.number != 0 {
        let to = TOP - (LAYOUT.rom - PROGRAM) as u32 + bench.chance.below(64);
        aim::put_long(&mut case.record, COUNTER, to);
    }
    i32::from(aim::nesting(&case.record).wrapping_sub(before) as i16)
}

/// Handlers, and behind them a program of listed instructions that ends by going
/// back to its start.
pub fn program(chance: &mut Chance, forms: &[Form]) -> Case {
    let mut case = Case {
        call: Call::Step,
        record: aim::record(chance, LAYOUT),
        ram: aim::noise(chance, LAYOUT.ram),
        rom: Image::zeros(LAYOUT.rom),
    };
    put_handlers(chance, &mut case.rom);
    let mut place = PROGRAM;
    while place < LAYOUT.rom - 12 {
        let form = &forms[chance.below(forms.len() as u32) as usize];
        let code = aim::code(chance, form, LAYOUT);
        case.rom.put(place, &code);
        place += code.len();
    }
    let start = LAYOUT.rom_start() + PROGRAM as u32;
    let back = start.to_le_bytes();
    case.rom.put(place, &[0x1B, back[0], back[1], back[2]]);
    aim::put_long(&mut case.record, COUNTER, start);
    aim::set_long(&mut case.record, XSP, LAYOUT.ram as u32);
    aim::set_mask(&mut case.record, 0);
    case
}

/// How far elements reach in RAM; the stack is above them.
const ELEMENTS: u32 = 80;
const MIDDLE: u32 = ELEMENTS / 2;

/// A repeating form with requests between its rounds, some of them within others,
/// whose handlers end in RETI: it ends as it does without any, but for what lies
/// below the stack.
pub fn in_repeats(bench: &mut Bench) {
    let forms = block_forms();
    let mut taken = 0;
    for _ in 0..6_000 * bench.rounds {
        let code = repeating_code(&mut bench.chance, &forms);
        let case = repeat(&mut bench.chance, code);
        let mut plain = case.clone();
        plain.call = Call::Run(100);
        bench.judge.hold_and_carry(&mut plain);

        let mut broken = case.clone();
        taken += with_requests(bench, &mut broken);
        let elements = ..ELEMENTS as usize;
        let alike = broken.ram.bytes[elements] == plain.ram.bytes[elements];
        // By XSP it goes through the stack, and a request writes there.
        let same = code[0] & 7 == XSP || (alike && broken.record == plain.record);
        bench.judge.expect(same, || {
            format!("requests change a repeat: --case '{}'", case.text())
        });
        if bench.judge.weary() {
            return;
        }
    }
    bench.judge.expect(taken > 10_000, || {
        format!("only {taken} requests were taken among rounds")
    });
}

/// Elements of few values in the lower RAM, and a stack above them. ROM has the
/// code, handlers, and behind the code FF, which is listed nowhere.
fn repeat(chance: &mut Chance, code: [u8; 2]) -> Case {
    let mut rom = Image::of(&[0xFF; PROGRAM + 4]);
    put_handlers(chance, &mut rom);
    rom.put(PROGRAM, &code);
    let mut ram = Image::zeros(ELEMENTS as usize + 64);
    for byte in &mut ram.bytes {
        *byte = chance.below(3) as u8;
    }
    let mut machine = Machine::zero();
    machine.bank = chance.below(4) as u8;
    let downward = code[1] & 2 != 0;
    for register in 2..7 {
        let apart = chance.below(MIDDLE - 4);
        let start = if downward {
            MIDDLE + apart
        } else {
            MIDDLE - apart
        };
        machine.set(Width::Long, register, start);
    }
    machine.set(Width::Long, 0, chance.below(3) << 8 | chance.below(4));
    machine.set(Width::Long, XSP, ram.len() as u32);
    machine.set(Width::Word, BC, 1 + chance.below(20));
    machine.counter = TOP - rom.len() as u32 + PROGRAM as u32;
    let mut case = Case {
        call: Call::Step,
        record: machine.to_record().expect("a valid state").to_vec(),
        ram,
        rom,
    };
    aim::draw_flags(chance, &mut case.record);
    aim::draw_nesting(chance, &mut case.record);
    case
}

/// Steps to the code that is not listed, with requests offered on the way: how
/// many of them were taken.
fn with_requests(bench: &mut Bench, case: &mut Case) -> u32 {
    let mut taken = 0;
    // By XSP it may go anywhere.
    for _ in 0..5_000 {
        let chance = &mut bench.chance;
        if chance.once_in(4) {
            // As deep as the stack goes, and no deeper.
            let stack = aim::get_long(&case.record, aim::place_of_long(&case.record, XSP));
            let room = stack.wrapping_sub(ELEMENTS) >= 2 * FRAME;
            let level = if room { 1 + chance.below(7) } else { 0 };
            let vector = a_vector(chance, &case.rom);
            taken += offer(bench, case, level, vector).count;
        }
        case.call = Call::Step;
        if bench.judge.hold_and_carry(case).number != 0 {
            break;
        }
    }
    taken
}
