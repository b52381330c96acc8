//! Block copies and compares: each round, and to their ends.

use super::codes::aimed_case;
use super::Bench;
use crate::judge::Answer;
use draw::aim::{self, Layout, BC};
use draw::case::{Call, Case};
use draw::chance::Chance;
use draw::image::Image;
use forms::Form;
use second::record::{COUNTER, F};
use second::{Machine, Width};

/// The two pairs of pointers that copies have: to and from.
const COPIES: [(u8, u8, u8); 2] = [(0x83, 2, 3), (0x85, 4, 5)];
const Z: u8 = 0x40;

/// Where ROM holds the code of the cases below.
const ROM_LENGTH: usize = 300;
const ROM_START: u32 = (1 << 24) - ROM_LENGTH as u32;

/// The copies and the compares.
pub fn block_forms() -> [Form; 2] {
    ["LDI LDIR LDD LDDR", "CPI CPIR CPD CPDR"].map(forms::named)
}

/// Any block code from aimed states: BC and the pointers go round.
pub fn rounds(bench: &mut Bench) {
    let forms = block_forms();
    for _ in 0..150_000 * bench.rounds {
        let form = &forms[bench.chance.below(2) as usize];
        let case = aimed_case(&mut bench.chance, form);
        bench.judge.hold(&case);
        if bench.judge.weary() {
            return;
        }
    }
}

/// A repeating block code.
pub fn repeating_code(chance: &mut Chance, forms: &[Form; 2]) -> [u8; 2] {
    let form = &forms[chance.below(2) as usize];
    let nowhere = Layout { ram: 0, rom: 0 };
    let code = aim::code(chance, form, nowhere);
    let [first, second]: [u8; 2] = code.try_into().expect("a block code has two bytes");
    [first, second | 1]
}

/// A case whose code stands at the start of a short ROM. Behind it stands
/// FF, which is listed nowhere, so that a run ends with 4 right there. The
/// flags and the nesting count are drawn.
fn in_rom(chance: &mut Chance, machine: &Machine, code: &[u8], ram: Image, call: Call) -> Case {
    let mut machine = machine.clone();
    machine.counter = ROM_START;
    let mut case = Case {
        call,
        record: machine.to_record().expect("a valid state").to_vec(),
        ram,
        rom: rom_with(code),
    };
    aim::draw_flags(chance, &mut case.record);
    aim::draw_nesting(chance, &mut case.record);
    case
}

fn rom_with(code: &[u8]) -> Image {
    let mut rom = Image::of(&[0xFF; ROM_LENGTH]);
    rom.put(0, code);
    rom
}

/// Copies onto themselves, a few bytes up or down: in one run, and step by
/// step. Some run over the end of RAM, and some over their own code.
pub fn overlapping_copies(bench: &mut Bench) {
    for (first, to, from) in COPIES {
        for word in [0, 16] {
            for digit in 0..4 {
                for apart in 0..=16 {
                    for _ in 0..12 * bench.rounds {
                        let code = [first + word, 0x10 + digit];
                        copy_apart(bench, code, to, from, apart);
                    }
                }
            }
        }
        if bench.judge.weary() {
            return;
        }
    }
}

fn copy_apart(bench: &mut Bench, code: [u8; 2], to: u8, from: u8, apart: u32) {
    const RAM_LENGTH: u32 = 64;
    let chance = &mut bench.chance;
    let mut machine = Machine::zero();
    let start = chance.below(RAM_LENGTH);
    machine.set(Width::Long, from, start);
    machine.set(Width::Long, to, (start + apart).wrapping_sub(8));
    machine.set(Width::Word, BC, 1 + chance.below(30));
    let ram = aim::noise(chance, RAM_LENGTH as usize);
    let mut case = in_rom(chance, &machine, &code, ram, Call::Run(40));
    if chance.once_in(4) {
        // The code lies in RAM, where the copy may run over it.
        let place = chance.below(RAM_LENGTH - 2);
        case.ram.put(place as usize, &code);
        aim::put_long(&mut case.record, COUNTER, place);
    }
    bench.judge.hold(&case);
    case.call = Call::Step;
    for _ in 0..40 {
        if bench.judge.hold_and_carry(&mut case).number != 0 {
            break;
        }
    }
}

/// Whether two cases have come to the same state and RAM.
fn alike(one: &Case, other: &Case) -> bool {
    one.record == other.record && one.ram == other.ram
}

/// A repeating form run to its end, against its single form stepped by hand
/// with the counter put back after every round.
pub fn repeats_by_hand(bench: &mut Bench) {
    let forms = block_forms();
    for _ in 0..6_000 * bench.rounds {
        let code = repeating_code(&mut bench.chance, &forms);
        let case = repeat_case(&mut bench.chance, code);
        repeat_by_hand(bench, code, case);
        if bench.judge.weary() {
            return;
        }
    }
}

/// Pointers into a short RAM, elements of few values so that a compare often
/// finds its own.
fn repeat_case(chance: &mut Chance, code: [u8; 2]) -> Case {
    let length = 80;
    let mut ram = Image::zeros(length);
    for byte in &mut ram.bytes {
        *byte = chance.below(3) as u8;
    }
    let mut machine = Machine::zero();
    machine.bank = chance.below(4) as u8;
    for register in 2..8 {
        machine.set(Width::Long, register, chance.below(length as u32));
    }
    machine.set(Width::Long, 0, chance.below(3) << 8 | chance.below(4));
    // Downward from 0 the pointers come to the end of ROM. The count ends them
    // before they reach the code there, whose bytes are not the single form's.
    let fewest = u32::from(code[1] & 2 != 0);
    machine.set(Width::Word, BC, fewest + chance.below(60));
    in_rom(chance, &machine, &code, ram, Call::Run(200))
}

fn repeat_by_hand(bench: &mut Bench, code: [u8; 2], case: Case) {
    let mut at_once = case.clone();
    let answer = bench.judge.hold_and_carry(&mut at_once);

    let mut by_hand = case.clone();
    by_hand.call = Call::Step;
    by_hand.rom = rom_with(&[code[0], code[1] & !1]);
    let rounds = rounds_by_hand(bench, code, &mut by_hand);
    let agreed = answer == rounds && alike(&at_once, &by_hand);
    bench.judge.expect(agreed, || {
        format!("a repeat is not its rounds: --case '{}'", case.text())
    });
}

/// Steps a single form, putting the counter back, until BC is 0, a compare
/// has found its own or a round is refused: what a run of the rounds that were
/// done, and of what comes after them, has to answer.
fn rounds_by_hand(bench: &mut Bench, code: [u8; 2], case: &mut Case) -> Answer {
    let count_place = aim::place_of_long(&case.record, BC);
    let compares = code[1] & 4 != 0;
    let mut rounds = 0;
    loop {
        let answer = bench.judge.hold_and_carry(case);
        if answer.number != 0 {
            return Answer {
                count: rounds,
                ..answer
            };
        }
        rounds += 1;
        let left = aim::get_long(&case.record, count_place) & 0xFFFF;
        let found = compares && case.record[F] & Z != 0;
        if left == 0 || found {
            return Answer::counted((rounds, second::number::NOT_LISTED));
        }
        aim::put_long(&mut case.record, COUNTER, ROM_START);
    }
}

/// A repeating form whose steps run out in the middle, and goes on in the
/// next call, to its end: each call against the second interpreter, and all
/// together against one call.
pub fn repeats_cut_short(bench: &mut Bench) {
    let forms = block_forms();
    for _ in 0..4_000 * bench.rounds {
        let code = repeating_code(&mut bench.chance, &forms);
        let case = repeat_case(&mut bench.chance, code);
        repeat_in_pieces(bench, case);
        if bench.judge.weary() {
            return;
        }
    }
}

fn repeat_in_pieces(bench: &mut Bench, case: Case) {
    const STEPS: u32 = 200;
    let mut at_once = case.clone();
    let whole = bench.judge.hold_and_carry(&mut at_once);

    let mut in_pieces = case.clone();
    let mut all = Answer::number(0);
    while all.number == 0 && all.count < STEPS {
        let piece = (1 + bench.chance.below(12)).min(STEPS - all.count);
        in_pieces.call = Call::Run(piece);
        let answer = bench.judge.hold_and_carry(&mut in_pieces);
        all = Answer {
            count: all.count + answer.count,
            ..answer
        };
    }
    let agreed = whole == all && alike(&at_once, &in_pieces);
    bench.judge.expect(agreed, || {
        format!("a repeat is not its pieces: --case '{}'", case.text())
    });
}

/// Repeats of up to 65,536 rounds over the largest memories, against a loop
/// of single forms in code.
pub fn large_repeats(bench: &mut Bench) {
    for (count, code) in [
        (0, [0x83, 0x11]),
        (0, [0x85, 0x13]),
        (0x7FFF, [0x95, 0x11]),
        (0x8000, [0x93, 0x13]),
        (0, [0x84, 0x15]),
        (0, [0x87, 0x17]),
        (0x8000, [0x96, 0x15]),
        (0x8001, [0x92, 0x17]),
    ] {
        large_repeat(bench, count, code);
    }
}

fn large_repeat(bench: &mut Bench, count: u32, code: [u8; 2]) {
    let downward = code[1] & 2 != 0;
    let start = if downward { 0xFFFF } else { 0 } & if code[0] >= 0x90 { 0xFFFE } else { 0xFFFF };
    let mut machine = Machine::zero();
    for register in 2..8 {
        machine.set(Width::Long, register, start);
    }
    // A pointer's highest byte is no part of an address.
    machine.set(Width::Long, 3, 0x5A00_0000 | start);
    machine.set(Width::Word, BC, count);
    // Noise without the sought bytes, but for one near the far end.
    let mut ram = aim::noise(&mut bench.chance, 65_536);
    for byte in &mut ram.bytes {
        *byte |= 1;
    }
    if bench.chance.once_in(2) {
        ram.put(if downward { 0x10 } else { 0xFFE0 }, &[0, 0]);
    }
    let chance = &mut bench.chance;
    let mut repeat = in_rom(chance, &machine, &code, ram, Call::Run(70_000));
    // The single form, and back to it while BC is not 0 (V) and, for a
    // compare, nothing was found (Z).
    let single = [code[0], code[1] & !1];
    let mut looped = repeat.clone();
    looped.call = Call::Run(300_000);
    looped.rom = if code[1] & 4 != 0 {
        rom_with(&[single[0], single[1], 0x66, 0x02, 0x64, 0xFA])
    } else {
        rom_with(&[single[0], single[1], 0x64, 0xFC])
    };
    let text = repeat.text();
    let at_once = bench.judge.hold_and_carry(&mut repeat);
    let in_a_loop = bench.judge.hold_and_carry(&mut looped);
    let past = aim::get_long(&repeat.record, COUNTER);
    aim::put_long(&mut looped.record, COUNTER, ROM_START + 2);
    let same =
        past == ROM_START + 2 && at_once.number == in_a_loop.number && alike(&repeat, &looped);
    bench.judge.expect(same, || {
        format!("a repeat is not a loop of rounds: --case '{text}'")
    });
}
