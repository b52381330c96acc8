//! Block copies and compares, one round a step.

mod common;

use common::{at, memory, rom_start, step_once, Chance, A, BC, WA, XDE, XHL, XIX, XIY};
use second::{run, Machine, Width};

const LDI: u8 = 0x10;
const LDIR: u8 = 0x11;
const LDD: u8 = 0x12;
const LDDR: u8 = 0x13;
const CPI: u8 = 0x14;
const CPIR: u8 = 0x15;
const CPD: u8 = 0x16;
const CPDR: u8 = 0x17;

/// A state at two bytes of code in a ROM of exactly those, and that ROM.
fn at_block(code: [u8; 2], longs: &[(u8, u32)], count: u32) -> (Machine, [u8; 2]) {
    let mut machine = at(rom_start(&code), longs);
    machine.set(Width::Word, BC, count);
    (machine, code)
}

/// BC 0 means 65,536 rounds, each a step.
#[test]
fn a_count_of_0_is_65536_rounds() {
    let (mut machine, rom) = at_block([0x83, LDIR], &[(XHL, 0), (XDE, 0)], 0);
    let mut ram: Vec<u8> = (0..=65_535u32).map(|n| (n * 7 % 251) as u8).collect();
    let before = ram.clone();
    machine.f = 0xD7;
    let start = machine.counter;
    assert_eq!(run(&mut machine, &mut ram, &rom, 65_535), (65_535, 0, 0));
    assert_eq!(machine.counter, start);
    assert_eq!(machine.get(Width::Word, BC), 1);
    assert_eq!(machine.f, 0xC5);
    assert_eq!(run(&mut machine, &mut ram, &rom, 1), (1, 0, 0));
    assert_eq!(machine.counter, 0, "past the last bytes of ROM");
    assert_eq!(machine.get(Width::Word, BC), 0);
    assert_eq!(machine.get(Width::Long, XHL), 65_536);
    assert_eq!(machine.get(Width::Long, XDE), 65_536);
    assert_eq!(machine.f, 0xC1);
    assert!(ram == before);
}

#[test]
fn a_compare_with_a_count_of_0_goes_through_65536_bytes() {
    let (mut machine, rom) = at_block([0x83, CPIR], &[], 0);
    machine.set(Width::Byte, A, 1);
    let mut ram = vec![0; 65_536];
    assert_eq!(run(&mut machine, &mut ram, &rom, 65_536), (65_536, 0, 0));
    assert_eq!(machine.counter, 0);
    assert_eq!(machine.get(Width::Long, XHL), 65_536);
    assert_eq!(machine.f, 0x02);
}

/// Demand 3: a repeating form is so many single rounds, whatever lies there.
#[test]
fn a_repeat_is_so_many_single_rounds() {
    let mut chance = Chance(1);
    let pairs = [(LDI, LDIR), (LDD, LDDR), (CPI, CPIR), (CPD, CPDR)];
    for (single, repeating) in pairs {
        for first in [0x83, 0x85, 0x93, 0x95] {
            for _ in 0..200 {
                let longs: Vec<(u8, u32)> = (2..8)
                    .map(|code| (code, 0x100 + chance.below(0x40)))
                    .collect();
                let count = 1 + chance.below(20);
                let ram: Vec<u8> = (0..0x200).map(|_| (chance.below(3)) as u8).collect();
                let (mut ours, rom) = at_block([first, repeating], &longs, count);
                ours.set(Width::Word, WA, chance.below(3) * 0x101);
                ours.f = chance.byte() & 0xD7;
                let (mut theirs, single_rom) = at_block([first, single], &longs, count);
                theirs.set(Width::Word, WA, ours.get(Width::Word, WA));
                theirs.f = ours.f;
                let (mut our_ram, mut their_ram) = (ram.clone(), ram);
                let start = ours.counter;

                let mut rounds = 0;
                while ours.counter == start {
                    assert_eq!(step_once(&mut ours, &mut our_ram, &rom), 0);
                    theirs.counter = start;
                    assert_eq!(step_once(&mut theirs, &mut their_ram, &single_rom), 0);
                    rounds += 1;
                    let equal = single >= CPI && theirs.f & 0x40 != 0;
                    assert_eq!(ours.counter != start, rounds == count || equal);
                }
                assert_eq!(ours, theirs);
                assert!(our_ram == their_ram);
            }
        }
    }
}

/// Each round reads what earlier rounds left: forward onto the next bytes
/// repeats the first, backward moves the block.
#[test]
fn overlapping_copies() {
    let text: Vec<u8> = (1..=9).collect();
    for (kind, source, target, wanted) in [
        (LDIR, 0u32, 1u32, [1, 1, 1, 1, 1, 1, 1, 1, 1]),
        (LDIR, 1, 0, [2, 3, 4, 5, 6, 7, 8, 9, 9]),
        (LDIR, 0, 3, [1, 2, 3, 1, 2, 3, 1, 2, 3]),
        (LDDR, 7, 8, [1, 1, 2, 3, 4, 5, 6, 7, 8]),
        (LDDR, 8, 7, [9, 9, 9, 9, 9, 9, 9, 9, 9]),
    ] {
        let distance = source.abs_diff(target);
        let count = 9 - distance;
        let (mut machine, rom) = at_block([0x85, kind], &[(XIY, source), (XIX, target)], count);
        let mut ram = text.clone();
        assert_eq!(run(&mut machine, &mut ram, &rom, count), (count, 0, 0));
        assert_eq!(ram, wanted, "{kind:02X} from {source} to {target}");
    }
}

/// Words that overlap by one byte.
#[test]
fn overlapping_words() {
    let (mut machine, rom) = at_block([0x93, LDIR], &[(XHL, 0), (XDE, 1)], 3);
    let mut ram = [1, 2, 3, 4, 5, 6, 7, 8];
    assert_eq!(run(&mut machine, &mut ram, &rom, 3), (3, 0, 0));
    // 1 2 goes over 2 3; then 2 4 over 4 5; then 4 6 over 6 7.
    assert_eq!(ram, [1, 1, 2, 2, 4, 4, 6, 8]);
}

/// The pointer ends past the match, not at it.
#[test]
fn a_compare_ends_past_its_match() {
    for place in 0..10u32 {
        let (mut machine, rom) = at_block([0x84, CPIR], &[(XIX, 0)], 100);
        machine.set(Width::Byte, A, 0x33);
        let mut ram = vec![0; 16];
        ram[place as usize] = 0x33;
        assert_eq!(
            run(&mut machine, &mut ram, &rom, place + 1),
            (place + 1, 0, 0)
        );
        assert_eq!(machine.counter, 0);
        assert_eq!(machine.get(Width::Long, XIX), place + 1);
        assert_eq!(machine.get(Width::Word, BC), 99 - place);
        assert_eq!(machine.f, 0x46);
    }
}

/// Pointers go round at 32 bits while addresses go round at 24: from the top
/// of ROM a search goes on at the bottom of RAM.
#[test]
fn pointers_go_round_at_32_bits() {
    let rom = memory(8, &[0x83, CPIR]);
    let mut ram = vec![0, 0, 0x33, 0];
    let mut machine = at(rom_start(&rom), &[(XHL, 0xFFFF_FFFE)]);
    machine.set(Width::Word, BC, 100);
    machine.set(Width::Byte, A, 0x33);
    assert_eq!(run(&mut machine, &mut ram, &rom, 5), (5, 0, 0));
    assert_eq!(machine.get(Width::Long, XHL), 3);

    // Downward from 0, then from the top on.
    let rom = memory(8, &[0x83, CPDR]);
    let mut machine = at(rom_start(&rom), &[(XHL, 0)]);
    machine.set(Width::Word, BC, 2);
    machine.set(Width::Byte, A, 0x33);
    assert_eq!(run(&mut machine, &mut ram, &rom, 2), (2, 0, 0));
    assert_eq!(machine.get(Width::Long, XHL), 0xFFFF_FFFE);

    // At 24 bits the pointer itself does not go round.
    let rom = memory(8, &[0x83, CPI]);
    let mut machine = at(rom_start(&rom), &[(XHL, 0x00FF_FFFF)]);
    assert_eq!(step_once(&mut machine, &mut [], &rom), 0);
    assert_eq!(machine.get(Width::Long, XHL), 0x0100_0000);

    // A word over the top is missing.
    let rom = memory(8, &[0x93, CPI]);
    let mut machine = at(rom_start(&rom), &[(XHL, 0xFFFF_FFFF)]);
    assert_eq!(step_once(&mut machine, &mut ram, &rom), 5);
}

/// Where a round meets a missing element or a ROM target the rounds before
/// it are done, and nothing of it.
#[test]
fn a_repeat_stops_before_the_round_it_cannot_do() {
    // 65,536 words are asked for, 32,768 are there.
    let (mut machine, rom) = at_block([0x93, LDIR], &[(XHL, 0), (XDE, 0)], 0);
    let mut ram = vec![0x55; 65_536];
    assert_eq!(
        run(&mut machine, &mut ram, &rom, 40_000),
        (32_768, 5, 0x1_0000)
    );
    assert_eq!(machine.get(Width::Word, BC), 32_768);
    assert_eq!(machine.get(Width::Long, XHL), 65_536);
    assert_eq!(machine.get(Width::Long, XDE), 65_536);
    assert_eq!(machine.f, 0x04);

    // Downward off the bottom: the target after 0 is the top of ROM.
    let (mut machine, rom) = at_block([0x83, LDDR], &[(XHL, 8), (XDE, 2)], 9);
    let mut ram = [1, 2, 3, 4, 5, 6, 7, 8, 9];
    assert_eq!(run(&mut machine, &mut ram, &rom, 9), (3, 6, 0xFF_FFFF));
    assert_eq!(ram, [7, 8, 9, 4, 5, 6, 7, 8, 9]);
    assert_eq!(machine.get(Width::Word, BC), 6);
    assert_eq!(machine.get(Width::Long, XDE), 0xFFFF_FFFF);
    assert_eq!(machine.get(Width::Long, XHL), 5);

    // A compare off the end of RAM.
    let (mut machine, rom) = at_block([0x83, CPIR], &[(XHL, 0)], 0);
    machine.set(Width::Byte, A, 1);
    assert_eq!(run(&mut machine, &mut [0; 5], &rom, 100), (5, 5, 5));
    assert_eq!(machine.get(Width::Long, XHL), 5);
    assert_eq!(machine.get(Width::Word, BC), 0x1_0000 - 5);
}

/// A copy over its own bytes: the next step takes what is there then.
#[test]
fn a_copy_over_itself() {
    // LDIR at 0 copies 00 00 over itself; then two NOPs and nothing more.
    let mut ram = [0x83, LDIR, 0x00, 0x00];
    let mut machine = at(0, &[(XHL, 2), (XDE, 0)]);
    machine.set(Width::Word, BC, 2);
    assert_eq!(step_once(&mut machine, &mut ram, &[]), 0);
    assert_eq!(machine.counter, 0);
    assert_eq!(ram, [0x00, LDIR, 0x00, 0x00]);
    // 00 is NOP, 11 is SCF, then the two NOPs.
    assert_eq!(run(&mut machine, &mut ram, &[], 9), (4, 3, 0));
    assert_eq!(machine.f, 0x05);
    assert_eq!(machine.get(Width::Word, BC), 1);
}

/// Every listed pointer compares, and moves alone.
#[test]
fn every_pointer() {
    for word in [false, true] {
        for pointer in 2..=7u8 {
            for kind in [CPI, CPD] {
                let first = if word { 0x90 } else { 0x80 } + pointer;
                let (mut machine, rom) = at_block([first, kind], &[(pointer, 0x20)], 5);
                let mut ram = vec![0; 0x40];
                ram[0x20] = 0x34;
                ram[0x21] = 0x12;
                machine.set(Width::Word, WA, 0x1234);
                let mut wanted = machine.clone();
                assert_eq!(step_once(&mut machine, &mut ram, &rom), 0);
                let size = if word { 2 } else { 1 };
                let moved = if kind == CPI {
                    0x20 + size
                } else {
                    0x20 - size
                };
                wanted.set(Width::Long, pointer, moved);
                wanted.set(Width::Word, BC, 4);
                wanted.counter = 0;
                wanted.f = 0x46;
                assert_eq!(machine, wanted, "{first:02X} {kind:02X}");
            }
        }
    }
}
