//! Memories of every length that matters, reset and show.

use super::Bench;
use draw::aim::{self, Layout, LENGTHS};
use draw::case::{Call, Case};
use second::record::{COUNTER, F};

fn over_noise(bench: &mut Bench, ram: usize, rom: usize) -> Case {
    // A ROM may be too long to have a place; then its states do not matter.
    let layout = Layout {
        ram: ram.min(65_536),
        rom: rom.min(65_536),
    };
    Case {
        call: Call::Step,
        record: aim::record(&mut bench.chance, layout),
        ram: aim::noise(&mut bench.chance, ram),
        rom: aim::noise(&mut bench.chance, rom),
    }
}

/// Every pair of lengths with every call, with good states and bad ones, so
/// that the order of 7, 1, 2 and 9 shows.
pub fn lengths(bench: &mut Bench) {
    for ram in LENGTHS {
        for rom in LENGTHS {
            let mut case = over_noise(bench, ram, rom);
            each_call(bench, &mut case);
            case.record[F] |= 0x08;
            each_call(bench, &mut case);
            case.record[F] &= !0x08;
            aim::spoil(&mut bench.chance, &mut case.record);
            each_call(bench, &mut case);
            case.record.pop();
            each_call(bench, &mut case);
            at_the_ends(bench, ram, rom);
            if bench.judge.weary() {
                return;
            }
        }
    }
}

fn each_call(bench: &mut Bench, case: &mut Case) {
    for call in [
        Call::Reset,
        Call::Step,
        Call::Run(0),
        Call::Run(5),
        Call::Run(1_000_000),
        Call::Run(1_000_001),
        Call::Run(u32::MAX),
        Call::Show(0),
        Call::Show(0xFF_FFFF),
        Call::Show(0x100_0000),
        Call::Request(7, 0),
        Call::Request(1, 0xFF_FFFC),
        Call::Request(7, 0xFF_FFFF),
        Call::Request(0, 0),
        Call::Request(7, 0x100_0000),
    ] {
        case.call = call;
        bench.judge.hold(case);
    }
}

/// NOPs and loads with the counter around the ends of these memories.
fn at_the_ends(bench: &mut Bench, ram: usize, rom: usize) {
    let ends = [0, ram as u32, (1 << 24) - rom as u32, 1 << 24];
    for end in ends {
        for offset in [-2, -1, 0, 1] {
            let mut case = over_noise(bench, ram, rom);
            let at = (end as i64 + offset) as u32 & 0xFF_FFFF;
            aim::put_long(&mut case.record, COUNTER, at);
            bench.judge.hold(&case);
            case.ram.put(at as usize, &[0x00]);
            let rom_start = (1usize << 24) - rom;
            if at as usize >= rom_start {
                case.rom.put(at as usize - rom_start, &[0x00]);
            }
            bench.judge.hold(&case);
            case.call = Call::Show(at);
            bench.judge.hold(&case);
        }
    }
}

/// Reset over ROMs of every length near 256 and of larger ones, with any
/// vector; what the record held before does not matter.
pub fn reset(bench: &mut Bench) {
    let lengths = (0..300).chain([4_096, 65_535, 65_536, 65_537]);
    for rom in lengths {
        for _ in 0..4 * bench.rounds {
            let ram = bench.chance.pick(&[0, 1, 40]);
            let mut case = over_noise(bench, ram, rom);
            case.call = Call::Reset;
            bench.judge.hold(&case);
            bench.chance.fill(&mut case.record);
            bench.judge.hold(&case);
        }
    }
}

/// Show at every address near an end, near 2^24 and far above it; and LDF and
/// EI with every second byte, in RAM and in ROM.
pub fn show(bench: &mut Bench) {
    for _ in 0..400 * bench.rounds {
        let layout = Layout::short(&mut bench.chance);
        let mut case = over_noise(bench, layout.ram, layout.rom);
        let ends = [0, layout.ram as u32, layout.rom_start(), 1 << 24, 1 << 31];
        for end in ends {
            for offset in 0..=24 {
                case.call = Call::Show(end.wrapping_add(offset).wrapping_sub(12));
                bench.judge.hold(&case);
            }
        }
        for _ in 0..50 {
            case.call = Call::Show(aim::address(&mut bench.chance, layout));
            bench.judge.hold(&case);
        }
        if bench.judge.weary() {
            return;
        }
    }
    for first in [0x17, 0x06] {
        for byte in 0..=255 {
            let mut case = over_noise(bench, 2, 2);
            case.ram.put(0, &[first, byte]);
            case.rom.put(0, &[first, byte]);
            for at in [0, 0xFF_FFFE] {
                case.call = Call::Show(at);
                bench.judge.hold(&case);
            }
        }
    }
}
