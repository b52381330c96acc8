//! Every code byte after every other, and every listed form.

use super::Bench;
use draw::aim::{self, Layout};
use draw::case::{Call, Case};
use draw::chance::Chance;
use forms::{Form, Slot};
use second::record::COUNTER;

/// What follows the first two bytes.
const TAILS: [[u8; 5]; 4] = [
    [0x00, 0x00, 0x00, 0x00, 0x00],
    [0xFF, 0xFF, 0xFF, 0xFF, 0xFF],
    [0x0F, 0x20, 0x00, 0x88, 0x03],
    [0x9B, 0x00, 0xF1, 0x45, 0x80],
];

const MIDDLING: Layout = Layout { ram: 320, rom: 320 };
const CODE_PLACE: usize = 0x40;

#[derive(Clone, Copy)]
enum Memory {
    Ram,
    Rom,
}

pub fn first_two_bytes_in_ram(bench: &mut Bench) {
    first_two_bytes(bench, Memory::Ram);
}

pub fn first_two_bytes_in_rom(bench: &mut Bench) {
    first_two_bytes(bench, Memory::Rom);
}

/// All 65,536, each with every tail, from a state whose pointers are all in
/// RAM and from one whose pointers are anywhere.
fn first_two_bytes(bench: &mut Bench, memory: Memory) {
    for _ in 0..bench.rounds {
        for tail in TAILS {
            for at_ease in [true, false] {
                for first in 0..=255 {
                    let mut case = blank(&mut bench.chance, memory, at_ease);
                    for second in 0..=255 {
                        let [a, b, c, d, e] = tail;
                        let code = [first, second, a, b, c, d, e];
                        put_code(&mut case, memory, &code);
                        bench.judge.hold(&case);
                    }
                    if bench.judge.weary() {
                        return;
                    }
                }
            }
        }
    }
}

/// A step with its counter where the code will be.
fn blank(chance: &mut Chance, memory: Memory, at_ease: bool) -> Case {
    let mut record = aim::record(chance, MIDDLING);
    if at_ease {
        for place in (0..COUNTER).step_by(4) {
            aim::put_long(&mut record, place, 0x80 + chance.below(0x80));
        }
    }
    let counter = CODE_PLACE as u32
        + match memory {
            Memory::Ram => 0,
            Memory::Rom => MIDDLING.rom_start(),
        };
    aim::put_long(&mut record, COUNTER, counter);
    Case {
        call: Call::Step,
        record,
        ram: aim::noise(chance, MIDDLING.ram),
        rom: aim::noise(chance, MIDDLING.rom),
    }
}

fn put_code(case: &mut Case, memory: Memory, code: &[u8]) {
    match memory {
        Memory::Ram => case.ram.put(CODE_PLACE, code),
        Memory::Rom => case.rom.put(CODE_PLACE, code),
    }
}

/// Forms whose last byte comes after an address, a displacement, a register
/// and a shift, or a register's code: with every last byte.
pub fn last_code_byte(bench: &mut Bench) {
    for (first, form) in long_beginnings() {
        for _ in 0..16 * bench.rounds {
            let memory = bench.chance.pick(&[Memory::Ram, Memory::Rom]);
            let mut case = blank(&mut bench.chance, memory, true);
            let mut code = aim::code(&mut bench.chance, &form, MIDDLING);
            code[0] = first;
            code.pop();
            for last in 0..=255 {
                code.push(last);
                put_code(&mut case, memory, &code);
                bench.judge.hold(&case);
                code.pop();
            }
        }
        if bench.judge.weary() {
            return;
        }
    }
}

/// Every byte that begins such a form, with one form that it begins.
fn long_beginnings() -> Vec<(u8, Form)> {
    let mut forms = forms::listed();
    forms.retain(|form| form.slots.len() > 2 && matches!(form.slots.last(), Some(Slot::One(_))));
    let begun_by = |first| forms.iter().find(|form| form.slots[0].takes(first));
    (0..=255)
        .filter_map(|first| Some((first, begun_by(first)?.clone())))
        .collect()
}

/// Every listed form, drawn over and over, from aimed states over short
/// memories. Each form must have been done many times, or nothing was shown.
pub fn listed_forms(bench: &mut Bench) {
    const TIMES: u32 = 20_000;
    for form in forms::listed() {
        let mut done = 0;
        for _ in 0..TIMES * bench.rounds {
            let case = aimed_case(&mut bench.chance, &form);
            let answer = bench.judge.hold(&case);
            done += u32::from(answer.number == 0);
            if bench.judge.weary() {
                return;
            }
        }
        bench.judge.expect(done > TIMES / 20, || {
            format!("{} was done only {done} times", form.name)
        });
    }
}

/// Listed forms over memories as long as they may be, or one byte shorter.
pub fn full_memories(bench: &mut Bench) {
    let forms = forms::listed();
    for _ in 0..100 * bench.rounds {
        let mut length = || 65_536 - bench.chance.below(2) as usize;
        let layout = Layout {
            ram: length(),
            rom: length(),
        };
        let mut case = Case {
            call: Call::Step,
            record: Vec::new(),
            ram: aim::noise(&mut bench.chance, layout.ram),
            rom: aim::noise(&mut bench.chance, layout.rom),
        };
        for form in &forms {
            case.record = aim::any_record(&mut bench.chance, layout);
            let code = aim::code(&mut bench.chance, form, layout);
            place_code(&mut bench.chance, layout, &mut case, &code);
            bench.judge.hold(&case);
        }
        if bench.judge.weary() {
            return;
        }
    }
}

/// A step over short memories whose counter is mostly at the drawn code:
/// mostly somewhere inside a memory, now and then right at its end.
pub fn aimed_case(chance: &mut Chance, form: &Form) -> Case {
    let layout = Layout::short(chance);
    let code = aim::code(chance, form, layout);
    let mut case = Case {
        call: Call::Step,
        record: aim::any_record(chance, layout),
        ram: aim::noise(chance, layout.ram),
        rom: aim::noise(chance, layout.rom),
    };
    place_code(chance, layout, &mut case, &code);
    case
}

fn place_code(chance: &mut Chance, layout: Layout, case: &mut Case, code: &[u8]) {
    let (in_ram, place) = aim::place(chance, layout, code.len());
    let (image, start) = if in_ram {
        (&mut case.ram, 0)
    } else {
        (&mut case.rom, layout.rom_start())
    };
    image.put(place, code);
    let counter = (start + place as u32) & 0xFF_FFFF;
    aim::put_long(&mut case.record, COUNTER, counter);
}
