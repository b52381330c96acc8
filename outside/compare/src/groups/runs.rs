//! Runs of many steps.

use super::Bench;
use crate::judge::Answer;
use draw::aim::{self, Layout};
use draw::case::{Call, Case};
use draw::chance::Chance;
use draw::image::Image;
use forms::Form;
use second::record::COUNTER;

pub const LAYOUT: Layout = Layout {
    ram: 2_048,
    rom: 2_048,
};

/// Runs through memories of noise. Where one stops, the next starts at
/// another place.
pub fn noise(bench: &mut Bench) {
    for _ in 0..3_000 * bench.rounds {
        let mut case = Case {
            call: Call::Run(1_000),
            record: aim::record(&mut bench.chance, LAYOUT),
            ram: aim::noise(&mut bench.chance, LAYOUT.ram),
            rom: aim::noise(&mut bench.chance, LAYOUT.rom),
        };
        for _ in 0..20 {
            let start = bench.chance.pick(&[0, LAYOUT.rom_start()]);
            let counter = start + bench.chance.below(2_048);
            aim::put_long(&mut case.record, COUNTER, counter);
            if bench.chance.once_in(50) {
                let mut spoilt = case.clone();
                aim::spoil(&mut bench.chance, &mut spoilt.record);
                bench.judge.hold(&spoilt);
            }
            bench.judge.hold_and_carry(&mut case);
            if bench.judge.weary() {
                return;
            }
        }
    }
}

/// Runs through listed instructions strung together in ROM, every other one
/// bringing a pointer back into RAM. A refused instruction is skipped.
pub fn strung(bench: &mut Bench) {
    const LEGS: u32 = 12;
    let forms = forms::listed();
    for _ in 0..1_500 * bench.rounds {
        let mut case = Case {
            call: Call::Run(2_500),
            record: aim::record(&mut bench.chance, LAYOUT),
            ram: aim::noise(&mut bench.chance, LAYOUT.ram),
            rom: string(&mut bench.chance, |chance| drawn(chance, &forms)),
        };
        aim::put_long(&mut case.record, COUNTER, LAYOUT.rom_start());
        for _ in 0..LEGS {
            bench.judge.hold_and_carry(&mut case);
            skip(bench, &mut case);
            if bench.judge.weary() {
                return;
            }
        }
    }
}

/// A ROM of drawn instructions that ends by going back to its start.
pub fn string(chance: &mut Chance, draw: impl Fn(&mut Chance) -> Vec<u8>) -> Image {
    let mut rom = Image::zeros(LAYOUT.rom);
    let mut place = 0;
    while place < LAYOUT.rom - 20 {
        let code = draw(chance);
        rom.put(place, &code);
        place += code.len();
        // LD R,n32: XBC, XWA and the pointers, into the middle of RAM.
        let mut load = vec![0x40 + chance.below(8) as u8];
        let pointer = 0x200 + chance.below(0x400);
        load.extend_from_slice(&pointer.to_le_bytes());
        rom.put(place, &load);
        place += load.len();
    }
    let start = LAYOUT.rom_start().to_le_bytes();
    rom.put(place, &[0x1B, start[0], start[1], start[2]]);
    rom
}

/// A listed instruction that does not jump far: jumps to an address, RET and
/// RETI would mostly end the run at once.
fn drawn(chance: &mut Chance, forms: &[Form]) -> Vec<u8> {
    loop {
        let form = &forms[chance.below(forms.len() as u32) as usize];
        let mut code = aim::code(chance, form, LAYOUT);
        match code[0] {
            0x07 | 0x0E | 0x1A..=0x1D => continue,
            0x1E | 0x70..=0x7F => code[2] = 0,
            0x60..=0x6F => {}
            _ => return code,
        }
        // Forward, and by little.
        code[1] &= 0x07;
        return code;
    }
}

/// Puts the counter past the instruction it is at, or back to the start.
pub fn skip(bench: &mut Bench, case: &mut Case) {
    let at = aim::get_long(&case.record, COUNTER);
    let mut shown = case.clone();
    shown.call = Call::Show(at);
    let answer = bench.judge.hold(&shown);
    let next = if answer.number == 0 && at >= LAYOUT.rom_start() {
        (at + answer.count) & 0xFF_FFFF
    } else {
        LAYOUT.rom_start() + bench.chance.below(64)
    };
    aim::put_long(&mut case.record, COUNTER, next);
}

/// Runs of none, one, the most and more than the most steps: over a loop
/// that never ends, and over code that is refused at once.
pub fn lengths(bench: &mut Bench) {
    let mut case = counting_loop(bench);
    for steps in [
        0,
        1,
        2,
        3,
        255,
        256,
        999,
        1_000,
        65_535,
        65_536,
        999_999,
        1_000_000,
        1_000_001,
        0x7FFF_FFFF,
        0x8000_0000,
        0xFFFF_FFFF,
    ] {
        case.call = Call::Run(steps);
        let answer = bench.judge.hold(&case);
        let wanted = if steps <= 1_000_000 {
            (steps, 0)
        } else {
            (0, 7)
        };
        bench.judge.expect(answer == Answer::counted(wanted), || {
            format!("a run of {steps} answered {answer:?}")
        });
    }
    case.rom = Image::of(&[0xFF; 16]);
    for steps in [0, 1, 1_000_000, 1_000_001] {
        case.call = Call::Run(steps);
        bench.judge.hold(&case);
    }
}

/// ADD, a store, a shift and INC, for ever.
fn counting_loop(bench: &mut Bench) -> Case {
    const CODE: [u8; 15] = [
        0xC9, 0xC8, 0x07, // ADD A,7
        0xE8, 0x81, // ADD XBC,XWA
        0xF0, 0x08, 0x61, // LD (8),XBC
        0xDA, 0x61, // INC 1,DE
        0xDA, 0xEC, 0x01, // SLA 1,DE
        0x68, 0xF1, // JR, to the start
    ];
    let layout = Layout { ram: 16, rom: 16 };
    let mut case = Case {
        call: Call::Step,
        record: aim::record(&mut bench.chance, layout),
        ram: Image::zeros(layout.ram),
        rom: Image::zeros(layout.rom),
    };
    case.rom.put(0, &CODE);
    aim::put_long(&mut case.record, COUNTER, layout.rom_start());
    case
}

/// A run leaves what that many single steps leave.
pub fn as_steps(bench: &mut Bench) {
    let forms = forms::listed();
    for _ in 0..150 * bench.rounds {
        let mut case = Case {
            call: Call::Step,
            record: aim::record(&mut bench.chance, LAYOUT),
            ram: aim::noise(&mut bench.chance, LAYOUT.ram),
            rom: string(&mut bench.chance, |chance| drawn(chance, &forms)),
        };
        aim::put_long(&mut case.record, COUNTER, LAYOUT.rom_start());
        for _ in 0..10 {
            case.call = Call::Run(bench.chance.below(300));
            run_as_steps(bench, &mut case);
            skip(bench, &mut case);
        }
        if bench.judge.weary() {
            return;
        }
    }
}

fn run_as_steps(bench: &mut Bench, case: &mut Case) {
    let steps = match case.call {
        Call::Run(steps) => steps,
        _ => 0,
    };
    let text = case.text();
    let mut stepped = case.clone();
    stepped.call = Call::Step;
    let ended = bench.judge.hold_and_carry(case);
    let mut all = Answer::number(0);
    while all.number == 0 && all.count < steps {
        let answer = bench.judge.hold_and_carry(&mut stepped);
        let done = u32::from(answer.number == 0);
        all = Answer {
            count: all.count + done,
            ..answer
        };
    }
    let same = ended == all && case.record == stepped.record && case.ram == stepped.ram;
    bench
        .judge
        .expect(same, || format!("a run is not its steps: --case '{text}'"));
}
