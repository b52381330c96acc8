//! The address that comes with 5 and 6: operands that are missing, wholly or
//! from some byte on, and stores to ROM, at each place where a memory begins or
//! ends. Each group tries every way to come to memory, by a step and in runs,
//! and has to have met each sort of refusal that it is there for.

mod access;
mod met;
mod scene;

use super::Bench;
use crate::judge::Answer;
use access::{tried, Aim, Kind, Tried};
use draw::aim::{self, Layout};
use draw::case::{Call, Case};
use draw::chance::Chance;
use draw::image::Image;
use library::Empty;
use met::{Met, Mode, Sort};
use scene::{Scene, MOST_LED, ROOM};

const TOP: u32 = 1 << 24;
const MOST_BYTES: usize = second::MOST_BYTES;

/// Both memories are there, and one of them at least has room for code.
const BOTH: &[Layout] = &[
    Layout { ram: 1, rom: 64 },
    Layout { ram: 2, rom: 65 },
    Layout { ram: 3, rom: 66 },
    Layout { ram: 64, rom: 1 },
    Layout { ram: 65, rom: 2 },
    Layout { ram: 66, rom: 3 },
    Layout { ram: 255, rom: 256 },
    Layout { ram: 256, rom: 300 },
];
const NO_RAM: &[Layout] = &[Layout { ram: 0, rom: 65 }, Layout { ram: 0, rom: 256 }];
const NO_ROM: &[Layout] = &[Layout { ram: 65, rom: 0 }, Layout { ram: 256, rom: 0 }];
const MOST_RAM: &[Layout] = &[Layout {
    ram: MOST_BYTES,
    rom: 64,
}];

/// All that store, and so can come to ROM.
const STORING: &[Kind] = &[
    Kind::Store,
    Kind::ReadAndStore,
    Kind::Push,
    Kind::Call,
    Kind::CopyTo,
    Kind::CopyToRom,
];
/// What can go on through RAM, upward, until it is refused.
const UP_THROUGH_RAM: &[Kind] = &[
    Kind::Read,
    Kind::Store,
    Kind::ReadAndStore,
    Kind::Pop,
    Kind::Return,
    Kind::Compare,
    Kind::CopyFrom,
    Kind::CopyFromToThere,
    Kind::CopyTo,
];
/// What can go on through RAM, downward.
const DOWN_THROUGH_RAM: &[Kind] = &[
    Kind::Read,
    Kind::Store,
    Kind::ReadAndStore,
    Kind::Push,
    Kind::Call,
    Kind::Compare,
    Kind::CopyFrom,
    Kind::CopyFromToThere,
    Kind::CopyTo,
];
/// What can go on through ROM, upward, with nothing in RAM.
const UP_THROUGH_ROM: &[Kind] = &[Kind::Read, Kind::Pop, Kind::Return, Kind::Compare];

/// Where operands are aimed, and what has to be met there.
struct Straddle {
    layouts: &'static [Layout],
    /// How often everything is tried.
    times: u32,
    /// The address at which a memory ends, or begins.
    end: fn(Layout) -> u32,
    /// Whether operands that begin in a memory run out of it here.
    runs_out: bool,
    /// What meets ROM.
    to_rom: &'static [Kind],
    /// What is refused after some rounds of its own, and in which direction.
    goes_on: &'static [(Mode, &'static [Kind])],
}

const END_OF_RAM: Straddle = Straddle {
    layouts: BOTH,
    times: 2,
    end: |layout| layout.ram as u32,
    runs_out: true,
    to_rom: &[Kind::CopyToRom],
    goes_on: &[(Mode::Upward, UP_THROUGH_RAM)],
};
const START_OF_ROM: Straddle = Straddle {
    layouts: BOTH,
    times: 2,
    end: Layout::rom_start,
    runs_out: false,
    to_rom: STORING,
    goes_on: &[(Mode::Downward, &[Kind::Read, Kind::Compare, Kind::CopyFrom])],
};
const AT_THE_TOP: Straddle = Straddle {
    layouts: BOTH,
    times: 2,
    end: |_| TOP,
    runs_out: true,
    to_rom: STORING,
    goes_on: &[
        (Mode::Upward, UP_THROUGH_ROM),
        (Mode::Downward, DOWN_THROUGH_RAM),
    ],
};

/// Operands begin in RAM and go on behind it.
pub fn end_of_ram(bench: &mut Bench) {
    try_all(bench, &END_OF_RAM);
}

/// The same where the first address behind RAM has more than 16 bits. Once is
/// enough: so much RAM takes its time.
pub fn end_of_most_ram(bench: &mut Bench) {
    let end_of_most_ram = Straddle {
        layouts: MOST_RAM,
        times: 1,
        ..END_OF_RAM
    };
    try_all(bench, &end_of_most_ram);
}

/// Operands begin in neither memory and go on in ROM, or begin in ROM.
pub fn start_of_rom(bench: &mut Bench) {
    try_all(bench, &START_OF_ROM);
}

/// Operands begin in ROM, or before a very short one, and go on at 000000H in
/// RAM.
pub fn top(bench: &mut Bench) {
    try_all(bench, &AT_THE_TOP);
}

/// All there is is ROM, and nothing at 000000H.
pub fn no_ram(bench: &mut Bench) {
    let start_of_rom = Straddle {
        layouts: NO_RAM,
        goes_on: &[(Mode::Downward, &[Kind::Read, Kind::Compare])],
        ..START_OF_ROM
    };
    let top = Straddle {
        layouts: NO_RAM,
        goes_on: &[(Mode::Upward, UP_THROUGH_ROM)],
        ..AT_THE_TOP
    };
    handed_both_ways(bench, &[start_of_rom, top]);
}

/// All there is is RAM: operands at the top begin in neither memory and go on
/// in RAM, and no store meets ROM.
pub fn no_rom(bench: &mut Bench) {
    let end_of_ram = Straddle {
        layouts: NO_ROM,
        to_rom: &[],
        ..END_OF_RAM
    };
    let top = Straddle {
        layouts: NO_ROM,
        runs_out: false,
        to_rom: &[],
        goes_on: &[(Mode::Downward, DOWN_THROUGH_RAM)],
        ..AT_THE_TOP
    };
    handed_both_ways(bench, &[end_of_ram, top]);
}

/// With the empty memory null, and not null.
fn handed_both_ways(bench: &mut Bench, straddles: &[Straddle]) {
    for empty in [Empty::Null, Empty::Dangling] {
        bench.judge.hand_empty_as(empty);
        for straddle in straddles {
            try_all(bench, straddle);
        }
    }
}

/// There is no code, so no operand is looked for, wherever the registers point:
/// 3, and no address.
pub fn no_memory(bench: &mut Bench) {
    let nothing = Layout { ram: 0, rom: 0 };
    for empty in [Empty::Null, Empty::Dangling] {
        bench.judge.hand_empty_as(empty);
        for _ in 0..500 * bench.rounds {
            let mut case = Case {
                call: Call::Step,
                record: aim::record(&mut bench.chance, nothing),
                ram: Image::zeros(0),
                rom: Image::zeros(0),
            };
            for (call, number) in [
                (Call::Step, 3),
                (Call::Run(0), 0),
                (Call::Run(1), 3),
                (Call::Run(1_000_000), 3),
                (Call::Run(1_000_001), 7),
            ] {
                case.call = call;
                let answer = bench.judge.hold(&case);
                bench.judge.expect(answer == Answer::number(number), || {
                    format!("{call:?} without any memory answered {answer:?}")
                });
            }
        }
    }
}

/// Tries everything there, and sees that all was met that has to be.
fn try_all(bench: &mut Bench, straddle: &Straddle) {
    let tried = tried();
    let mut met = Met::default();
    at_each_address(bench, straddle, &tried, &mut met);
    anywhere_near(bench, straddle, &tried, &mut met);
    if !bench.judge.weary() {
        expect_met(bench, straddle, &tried, &met);
    }
}

/// Every form in every size, its operand at each address from five before an
/// end to one behind it, in each mode.
fn at_each_address(bench: &mut Bench, straddle: &Straddle, tried: &[Tried], met: &mut Met) {
    for &layout in straddle.layouts {
        for _ in 0..straddle.times * bench.rounds {
            let mut scene = Scene::new(&mut bench.chance, layout);
            let end = (straddle.end)(layout);
            for offset in 0..=6 {
                let first = end.wrapping_add(offset).wrapping_sub(5);
                for (one, mode) in in_each_mode(tried) {
                    attempt(bench, &mut scene, one, (first, end), mode, met);
                }
            }
            if bench.judge.weary() {
                return;
            }
        }
    }
}

fn in_each_mode(tried: &[Tried]) -> impl Iterator<Item = (&Tried, Mode)> {
    tried
        .iter()
        .flat_map(|one| Mode::ALL.map(|mode| (one, mode)))
}

/// Forms, addresses further from an end and lengths of the memories, all drawn.
fn anywhere_near(bench: &mut Bench, straddle: &Straddle, tried: &[Tried], met: &mut Met) {
    for _ in 0..20 * straddle.times * bench.rounds {
        let layout = redrawn(&mut bench.chance, straddle.layouts);
        let mut scene = Scene::new(&mut bench.chance, layout);
        let end = (straddle.end)(layout);
        for _ in 0..50 {
            let chance = &mut bench.chance;
            let one = &tried[chance.below(tried.len() as u32) as usize];
            let first = end.wrapping_add(chance.below(20)).wrapping_sub(12);
            let mode = chance.pick(&Mode::ALL);
            attempt(bench, &mut scene, one, (first, end), mode, met);
        }
        if bench.judge.weary() {
            return;
        }
    }
}

/// One of the layouts with other lengths; but none stays none, the most stays
/// the most, and what has room for code keeps it.
fn redrawn(chance: &mut Chance, layouts: &[Layout]) -> Layout {
    let Layout { ram, rom } = chance.pick(layouts);
    let mut length = |before| match before {
        0 | MOST_BYTES => before,
        _ if before < ROOM => 1 + chance.below(8) as usize,
        _ => ROOM + chance.below(240) as usize,
    };
    Layout {
        ram: length(ram),
        rom: length(rom),
    }
}

/// One instruction of a form with its operand at an address near an end. What
/// it answers is noted where as many steps were done as come before it at least.
fn attempt(
    bench: &mut Bench,
    scene: &mut Scene,
    tried: &Tried,
    (first, end): (u32, u32),
    mode: Mode,
    met: &mut Met,
) {
    let chance = &mut bench.chance;
    let (led, rounds, upward) = match mode {
        Mode::Step => (0, 0, chance.once_in(2)),
        Mode::Led => (1 + chance.below(MOST_LED), 0, chance.once_in(2)),
        Mode::Upward => (0, 1 + chance.below(4), true),
        Mode::Downward => (0, 1 + chance.below(4), false),
    };
    let aim = Aim {
        layout: scene.layout,
        first: first % TOP,
        home: scene.home,
        upward,
    };
    let access = match tried.aimed(chance, &aim) {
        Some(access) if rounds == 0 || tried.goes(upward) => access,
        _ => return,
    };
    scene.set(chance, &access, led, rounds);
    scene.case.call = match mode {
        Mode::Step => Call::Step,
        // A round is three steps at most: itself, INC or DEC, and the jump back.
        _ => Call::Run(led + 3 * rounds + 1 + chance.below(3)),
    };
    let answer = bench.judge.hold(&scene.case);
    if answer.count >= led + rounds {
        met.note(tried.form.name, &access, mode, answer, end % TOP);
    }
}

/// Each form that reaches an end was refused there, and each kind of access in
/// each of its sizes with every sort of refusal.
fn expect_met(bench: &mut Bench, straddle: &Straddle, tried: &[Tried], met: &Met) {
    let judge = &mut *bench.judge;
    let ends: Vec<u32> = straddle.layouts.iter().copied().map(straddle.end).collect();
    let reaches = |one: &&Tried| ends.iter().any(|end| one.names(end - 1));
    for one in tried.iter().filter(reaches) {
        met.expect_form(judge, one.form.name, one.kind);
    }
    for kind in Kind::ALL {
        for &size in kind.sizes() {
            for sort in straddle.sorts(kind, size) {
                met.expect(judge, kind, size, Mode::Step, sort);
                met.expect(judge, kind, size, Mode::Led, sort);
            }
            for (mode, kinds) in straddle.goes_on {
                if kinds.contains(&kind) {
                    met.expect_rounds(judge, kind, size, *mode);
                }
            }
        }
    }
}

impl Straddle {
    /// The sorts of refusal that an access of a size has to meet: the first
    /// byte missing, or each of the others the first that is.
    fn sorts(&self, kind: Kind, size: u32) -> Vec<Sort> {
        let missing = match kind {
            Kind::CopyToRom => 0,
            _ if self.runs_out => size,
            _ => 1,
        };
        let mut sorts: Vec<Sort> = (0..missing).map(|further| (5, further)).collect();
        if self.to_rom.contains(&kind) {
            sorts.push((6, 0));
        }
        sorts
    }
}
