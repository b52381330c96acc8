//! The requests of K8. Whether one is taken, and what becomes of the mask, the
//! nesting count and the marks, is not taken from either machine: both are held
//! to the list in `forms`. Each group has to have met what it is there for.

mod among;
mod met;

use super::Bench;
use crate::judge::Answer;
pub use among::{a_turn, between_steps, in_repeats, program};
use draw::aim::{self, Layout, XSP};
use draw::case::{Call, Case};
use draw::chance::Chance;
use draw::image::Image;
use forms::{marks as listed, requests};
use library::Empty;
use met::Met;
use second::record::{COUNTER, F, MARKS};

const TOP: u32 = 1 << 24;
/// How many bytes a request pushes, and how many a vector has.
const FRAME: u32 = 6;
const VECTOR: usize = 4;

const PUSH_SR: [u8; 1] = [0x02];
const RETI: [u8; 1] = [0x07];

/// Levels that no request has.
const NO_LEVELS: [u32; 12] = [
    0,
    8,
    9,
    15,
    255,
    256,
    257,
    263,
    65_535,
    65_537,
    1 << 31,
    u32::MAX,
];

/// Both memories, one of them, none, and as much as there may be.
const LAYOUTS: [Layout; 10] = [
    Layout { ram: 64, rom: 64 },
    Layout { ram: 255, rom: 256 },
    Layout { ram: 6, rom: 5 },
    Layout { ram: 5, rom: 6 },
    Layout { ram: 10, rom: 4 },
    Layout { ram: 64, rom: 3 },
    Layout { ram: 64, rom: 0 },
    Layout { ram: 0, rom: 64 },
    Layout { ram: 0, rom: 0 },
    Layout {
        ram: 65_536,
        rom: 65_536,
    },
];

fn over_noise(chance: &mut Chance, layout: Layout) -> Case {
    Case {
        call: Call::Step,
        record: aim::record(chance, layout),
        ram: aim::noise(chance, layout.ram),
        rom: aim::noise(chance, layout.rom),
    }
}

/// Offers a request from a valid state over memories that are not too long, and
/// holds it to what K8 says.
fn held(bench: &mut Bench, case: &mut Case, level: u32, vector: u32) -> Answer {
    case.call = Call::Request(level, vector);
    let answer = bench.judge.hold(case);
    let (left, _) = bench.judge.left();
    let right = fits(&case.record, left, level, vector, answer);
    bench.judge.expect(right, || {
        format!(
            "K8 says otherwise than {answer:?}: --case '{}'",
            case.text()
        )
    });
    answer
}

/// As [`held`]; the case then takes what the request left.
fn offer(bench: &mut Bench, case: &mut Case, level: u32, vector: u32) -> Answer {
    let answer = held(bench, case, level, vector);
    bench.judge.carry(case);
    answer
}

/// Whether an answer, and the record that was left, fit the list.
fn fits(before: &[u8], left: &[u8], level: u32, vector: u32, answer: Answer) -> bool {
    if !requests::possible(level, vector) {
        return answer == Answer::number(9) && left == before;
    }
    if !requests::taken(aim::mask(before), level) {
        return answer == Answer::number(0) && left == before;
    }
    if answer != Answer::request((1, 0, 0)) {
        return answer.count == 0 && matches!(answer.number, 5 | 6) && left == before;
    }
    // The counter is the vector's; all that changes else is known.
    let mut wanted = before.to_vec();
    wanted[COUNTER..COUNTER + 3].copy_from_slice(&left[COUNTER..COUNTER + 3]);
    let stack = aim::get_long(before, aim::place_of_long(before, XSP));
    aim::set_long(&mut wanted, XSP, stack.wrapping_sub(FRAME));
    aim::set_mask(&mut wanted, requests::mask_after(level));
    aim::set_nesting(&mut wanted, aim::nesting(before).wrapping_add(1));
    left == wanted
}

/// Vector addresses round every end, above all addresses, and any.
fn vectors(chance: &mut Chance, layout: Layout) -> Vec<u32> {
    let ends = [0, layout.ram as u32, layout.rom_start(), TOP];
    let near = |end: u32| (0..=6).map(move |further| end.wrapping_add(further).wrapping_sub(5));
    let above = [TOP + 0x20, 1 << 31, u32::MAX];
    let any = [chance.below(TOP), aim::address(chance, layout)];
    ends.into_iter()
        .flat_map(near)
        .chain(above)
        .chain(any)
        .collect()
}

/// XSP in RAM, where what is pushed mostly fits; any highest byte.
fn draw_stack(chance: &mut Chance, record: &mut [u8], layout: Layout) {
    let room = (layout.ram as u32).saturating_sub(FRAME);
    let first = match chance.below(16) {
        0 => aim::address(chance, layout),
        _ => chance.below(room + 1),
    };
    let highest = chance.long() << 24;
    let stack = first.wrapping_add(FRAME) & 0xFF_FFFF;
    aim::set_long(record, XSP, stack | highest);
}

/// Every level at every mask, those that there are with vectors round every end,
/// the others with some of them.
pub fn levels(bench: &mut Bench) {
    for empty in [Empty::Null, Empty::Dangling] {
        bench.judge.hand_empty_as(empty);
        for layout in LAYOUTS {
            for mask in 0..8 {
                each_level(bench, layout, mask);
            }
            if bench.judge.weary() {
                return;
            }
        }
    }
}

fn each_level(bench: &mut Bench, layout: Layout, mask: u8) {
    let mut case = over_noise(&mut bench.chance, layout);
    for _ in 0..bench.rounds {
        let vectors = vectors(&mut bench.chance, layout);
        let some = |level| [level; 4].map(|level| (level, None));
        let all = |level| vectors.iter().map(move |&vector| (level, Some(vector)));
        let those = requests::LEVELS.flat_map(all);
        for (level, vector) in those.chain(NO_LEVELS.into_iter().flat_map(some)) {
            let chance = &mut bench.chance;
            let vector = vector.unwrap_or_else(|| chance.pick(&vectors));
            case.record = aim::record(chance, layout);
            aim::set_mask(&mut case.record, mask);
            draw_stack(chance, &mut case.record, layout);
            held(bench, &mut case, level, vector);
        }
    }
}

/// Requests from aimed states, one after another: each from what the one before
/// it left, but for the mask and the stack. Most are taken.
pub fn drawn(bench: &mut Bench) {
    for _ in 0..22_000 * bench.rounds {
        let layout = Layout::short(&mut bench.chance);
        let mut case = over_noise(&mut bench.chance, layout);
        for turn in 0..60 {
            if turn % 6 == 0 {
                case.record = aim::any_record(&mut bench.chance, layout);
            }
            let (level, vector) = draw_request(&mut bench.chance, &mut case, layout);
            case.call = Call::Request(level, vector);
            bench.judge.hold_and_carry(&mut case);
        }
        if bench.judge.weary() {
            return;
        }
    }
}

/// A request that is mostly taken, with a vector that is mostly there.
fn draw_request(chance: &mut Chance, case: &mut Case, layout: Layout) -> (u32, u32) {
    draw_stack(chance, &mut case.record, layout);
    let mask = match chance.below(8) {
        0 => 7,
        _ => chance.below(8) as u8,
    };
    aim::set_mask(&mut case.record, mask);
    let least = u32::from(mask.max(1));
    let level = match chance.below(24) {
        0 => chance.pick(&NO_LEVELS),
        1..=3 => chance.below(9),
        _ => least + chance.below(8 - least),
    };
    let ram = (layout.ram as u32).saturating_sub(3);
    let rom = (layout.rom as u32).saturating_sub(3);
    let vector = match chance.below(32) {
        0 => aim::address(chance, layout),
        1..=16 if ram > 0 => chance.below(ram),
        _ => layout.rom_start() + chance.below(rom.max(1)),
    };
    (level, vector)
}

/// Vectors and stacks at every place near every end, in all pairs: each sort of
/// refusal has to be met, and that the vector's comes first.
pub fn vectors_and_stacks(bench: &mut Bench) {
    let mut met = Met::default();
    for empty in [Empty::Null, Empty::Dangling] {
        bench.judge.hand_empty_as(empty);
        for layout in LAYOUTS {
            let mut case = over_noise(&mut bench.chance, layout);
            // So much memory takes its time.
            let few = layout.ram > 256;
            for vector in near_ends(layout) {
                for stack in near_ends(layout) {
                    if few && !bench.chance.once_in(8) {
                        continue;
                    }
                    pair(bench, &mut case, layout, (vector, stack), &mut met);
                }
            }
            if bench.judge.weary() {
                return;
            }
        }
    }
    met.expect_all(bench.judge);
}

/// Addresses from seven before every end to one behind it, and one far from all.
fn near_ends(layout: Layout) -> Vec<u32> {
    let ends = [0, layout.ram as u32, layout.rom_start()];
    let near = |end: u32| (0..=8).map(move |further| end.wrapping_add(further).wrapping_sub(7));
    let all = ends.into_iter().flat_map(near).chain([0x80_0000]);
    all.map(|at| at % TOP).collect()
}

/// A request that is taken if its vector and its stack are there. What it answers
/// is held to the two addresses, too.
fn pair(
    bench: &mut Bench,
    case: &mut Case,
    layout: Layout,
    (vector, stack): (u32, u32),
    met: &mut Met,
) {
    let chance = &mut bench.chance;
    let mask = chance.below(8) as u8;
    aim::set_mask(&mut case.record, mask);
    aim::draw_flags(chance, &mut case.record);
    aim::draw_nesting(chance, &mut case.record);
    let highest = chance.long() << 24;
    let pointer = stack.wrapping_add(FRAME) % TOP | highest;
    aim::set_long(&mut case.record, XSP, pointer);
    let level = chance.pick(&[7, u32::from(mask.max(1))]);
    let answer = held(bench, case, level, vector);
    let wanted = met.note(layout, vector, stack);
    bench.judge.expect(answer == wanted, || {
        format!("{answer:?}, to be {wanted:?}: --case '{}'", case.text())
    });
}

/// The vector lies across what is pushed, or touches it: it is read first.
pub fn overlaps(bench: &mut Bench) {
    let layout = Layout { ram: 48, rom: 8 };
    for _ in 0..5_000 * bench.rounds {
        let mut case = over_noise(&mut bench.chance, layout);
        for apart in 0..20 {
            let chance = &mut bench.chance;
            let stack = 10 + chance.below(layout.ram as u32 - 10 - FRAME - 9);
            let vector = stack + apart - 10;
            aim::set_mask(&mut case.record, 0);
            aim::draw_flags(chance, &mut case.record);
            aim::set_long(&mut case.record, XSP, stack + FRAME);
            let level = 1 + chance.below(7);
            let at = vector as usize;
            let bytes = case.ram.bytes[at..at + VECTOR].to_vec();
            let start = case.clone();
            let answer = offer(bench, &mut case, level, vector);
            let right = answer.count == 1 && case.record[COUNTER..COUNTER + 3] == bytes[..3];
            bench.judge.expect(right, || {
                format!("the vector is not read first: --case '{}'", start.text())
            });
        }
        if bench.judge.weary() {
            return;
        }
    }
}

/// Requests one within another until the count has gone round, and then RETI by
/// RETI back. The stack would not hold them all, so each has the same place.
pub fn nested(bench: &mut Bench) {
    const TIMES: u32 = 0x1_0000 + 3;
    let layout = Layout { ram: 16, rom: 8 };
    let mut case = over_noise(&mut bench.chance, layout);
    case.rom.put(0, &RETI);
    let handler = layout.rom_start();
    case.rom.put(4, &handler.to_le_bytes());
    aim::set_nesting(&mut case.record, 0);
    for times in 1..=TIMES {
        aim::set_long(&mut case.record, XSP, layout.ram as u32);
        let answer = offer(bench, &mut case, 7, handler + 4);
        count_is(bench, &case, answer == Answer::request((1, 0, 0)), times);
        if bench.judge.weary() {
            return;
        }
    }
    case.call = Call::Step;
    for times in (0..TIMES).rev() {
        aim::set_long(&mut case.record, XSP, layout.ram as u32 - FRAME);
        aim::put_long(&mut case.record, COUNTER, handler);
        let answer = bench.judge.hold_and_carry(&mut case);
        count_is(bench, &case, answer == Answer::number(0), times);
        if bench.judge.weary() {
            return;
        }
    }
}

/// A call was done, and the count is that many, as far as it goes.
fn count_is(bench: &mut Bench, case: &Case, done: bool, times: u32) {
    let nesting = aim::nesting(&case.record);
    let right = done && nesting == times as u16;
    bench.judge.expect(right, || {
        format!("the count is {nesting} after {times}: {}", case.text())
    });
}

/// A request with every set of marks and every F: it pushes the 0s and leaves the
/// marks standing, so that PUSH SR is refused; RETI clears those of F, and then
/// PUSH SR is done.
pub fn marks(bench: &mut Bench) {
    let layout = Layout { ram: 32, rom: 16 };
    for _ in 0..2 * bench.rounds {
        for before in listed::ALL {
            for f in (0..=255).filter(|f| f & !aim::FLAGS == 0) {
                let mut case = over_noise(&mut bench.chance, layout);
                case.record[F] = f;
                aim::put_marks(&mut case.record, before);
                marked(bench, case, layout);
            }
            if bench.judge.weary() {
                return;
            }
        }
    }
}

fn marked(bench: &mut Bench, mut case: Case, layout: Layout) {
    let handler = layout.rom_start();
    case.rom.put(4, &handler.to_le_bytes());
    let stack = 12 + bench.chance.below(layout.ram as u32 - 12);
    aim::set_long(&mut case.record, XSP, stack);
    let (before, f) = (case.record[MARKS], case.record[F]);
    let start = case.clone();
    let answer = offer(bench, &mut case, 7, handler + 4);
    let pushed = case.ram.bytes[(stack - FRAME) as usize];
    let mut right = answer.count == 1 && case.record[MARKS] == before && pushed == f;
    case.call = Call::Step;
    for code in [PUSH_SR, RETI] {
        case.rom.put(0, &code);
        let now = case.record[MARKS];
        let answer = bench.judge.hold(&case);
        right &= answer.number == if listed::refused(&code, now) { 8 } else { 0 };
        if code == RETI {
            bench.judge.carry(&mut case);
            right &= case.record[MARKS] == listed::after(&code, now) && case.record[F] == f;
        }
    }
    // Now the flags are known.
    case.rom = Image::of(&PUSH_SR);
    aim::put_long(&mut case.record, COUNTER, TOP - 1);
    right &= bench.judge.hold(&case) == Answer::number(0);
    bench.judge.expect(right, || {
        format!("the marks are not as K8 says: --case '{}'", start.text())
    });
}
