//! Bad use of the C surface: a number comes back, and nothing breaks.

use super::Bench;
use draw::aim::{self, Layout};
use draw::case::{Call, Case};
use draw::image::Image;
use library::Empty;
use second::record::{LENGTH, OLD_LENGTH};

const CALLS: [Call; 15] = [
    Call::Reset,
    Call::Step,
    Call::Run(0),
    Call::Run(100),
    Call::Run(1_000_001),
    Call::Show(0),
    Call::Show(0xFF_FFFF),
    Call::Show(0xFFFF_FFFF),
    Call::Request(7, 0),
    Call::Request(1, 0xFF_FF00),
    Call::Request(7, 0xFF_FFFF),
    Call::Request(8, 0),
    Call::Request(0xFFFF_FFFF, 0xFFFF_FFFF),
    Call::Widen,
    Call::Narrow,
];

const LAYOUT: Layout = Layout { ram: 300, rom: 300 };

pub fn all(bench: &mut Bench) {
    for empty in [Empty::Null, Empty::Dangling] {
        bench.judge.hand_empty_as(empty);
        nothing_lent(bench);
        nothing_to_move(bench);
        noise_lent(bench);
    }
    bench.judge.hand_empty_as(Empty::Dangling);
}

/// Each slice empty, alone and with the others.
fn nothing_lent(bench: &mut Bench) {
    for which in 0..8 {
        let length = |bit: u32, full: usize| if which & bit == 0 { full } else { 0 };
        let (ram, rom) = (length(2, LAYOUT.ram), length(4, LAYOUT.rom));
        let mut record = aim::record(&mut bench.chance, LAYOUT);
        record.truncate(length(1, record.len()));
        let mut case = Case {
            call: Call::Reset,
            record,
            ram: aim::noise(&mut bench.chance, ram),
            rom: aim::noise(&mut bench.chance, rom),
        };
        for call in CALLS {
            case.call = call;
            bench.judge.hold(&case);
        }
    }
}

/// A record to move, the room for it, both or neither; of the lengths that each
/// way needs, and of those of the other way.
fn nothing_to_move(bench: &mut Bench) {
    for call in [Call::Widen, Call::Narrow] {
        for length in [0, OLD_LENGTH, LENGTH] {
            for room in [0, OLD_LENGTH, LENGTH] {
                let mut record = aim::plain_record(&mut bench.chance, LAYOUT);
                record.truncate(length);
                let room = aim::noise(&mut bench.chance, room);
                bench.judge.hold(&Case::of_move(call, record, room));
            }
        }
    }
}

/// Records of noise of any length, and states' records, over memories of noise
/// of any length.
fn noise_lent(bench: &mut Bench) {
    for _ in 0..5_000 * bench.rounds {
        let lengths = [
            0,
            1,
            OLD_LENGTH,
            LENGTH - 1,
            LENGTH,
            LENGTH,
            LENGTH + 1,
            200,
        ];
        let mut record = vec![0; bench.chance.pick(&lengths)];
        bench.chance.fill(&mut record);
        // Noise is hardly ever a state's record.
        if record.len() == LENGTH && bench.chance.once_in(2) {
            record = aim::any_record(&mut bench.chance, LAYOUT);
        }
        let mut length = || match bench.chance.below(40) {
            0 => 65_537,
            1 => 70_000,
            _ => bench.chance.below(300) as usize,
        };
        let (ram, rom) = (length(), length());
        let mut case = Case {
            call: bench.chance.pick(&CALLS),
            record,
            ram: Image::zeros(ram),
            rom: Image::zeros(rom),
        };
        bench.chance.fill(&mut case.ram.bytes);
        bench.chance.fill(&mut case.rom.bytes);
        bench.judge.hold(&case);
        if bench.judge.weary() {
            return;
        }
    }
}
