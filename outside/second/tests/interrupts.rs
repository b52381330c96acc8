//! K8, sentence by sentence: EI, PUSH SR, POP SR, RETI, requests and the
//! nesting count.

mod common;

use common::{
    at, memory, offer, push_of_flags, rom_start, step_at, Chance, BC, LENGTHS, XDE, XHL, XSP,
};
use forms::requests;
use second::{reset, run, Machine, Marks, Width};

/// RAM with a vector at 40H to the handler at 60H, which is RETI.
const VECTOR: u32 = 0x40;
const HANDLER: u32 = 0x60;
const RETI: u8 = 0x07;

fn ram_with_handler() -> Vec<u8> {
    let mut ram = memory(0x100, &[]);
    ram[VECTOR as usize] = HANDLER as u8;
    ram[HANDLER as usize] = RETI;
    ram
}

/// A state that has something in every part, with its stack at 100H.
fn busy(mask: u8) -> Machine {
    let mut machine = at(0x12_3456, &[(XSP, 0x100), (XDE, 0xAABB_CCDD)]);
    machine.bank = 2;
    machine.level = mask;
    machine.f = 0x91;
    machine.f_prime = 0x42;
    machine.nesting = 0x1234;
    machine
}

// ---- EI, PUSH SR, POP SR

/// EI from every level to every level; every other number is 4.
#[test]
fn ei_sets_the_level_alone() {
    for before in 0..8 {
        for num in 0..=255 {
            let mut machine = busy(before);
            machine.counter = 0;
            let mut wanted = machine.clone();
            let ended = step_at(&mut machine, &mut [0x06, num], &[]);
            if num < 8 {
                (wanted.level, wanted.counter) = (num, 2);
            }
            assert_eq!(ended, (if num < 8 { 0 } else { 4 }, 0), "EI {num}");
            assert_eq!(machine, wanted, "EI {num}");
        }
    }
}

/// Every SR that there can be, pushed; and popped again over another.
#[test]
fn sr_is_pushed_and_popped() {
    let fitting = |word: &u16| requests::popped(*word) == *word;
    let words: Vec<u16> = (0..=0xFFFF).filter(fitting).collect();
    assert_eq!(words.len(), 64 * 4 * 8);
    for word in words {
        let mut machine = at(0, &[(XSP, 0x12)]);
        machine.f = word as u8;
        machine.bank = (word >> 8) as u8 & 3;
        machine.level = (word >> 12) as u8 & 7;
        let mut ram = memory(0x12, &[0x02, 0x03]);
        let pushed = machine.clone();
        assert_eq!(step_at(&mut machine, &mut ram, &[]), (0, 0));
        assert_eq!(ram[0x10..], word.to_le_bytes());
        assert_eq!(machine.get(Width::Long, XSP), 0x10);
        (machine.f, machine.bank, machine.level) = (0xD7, 1, 6);
        assert_eq!(step_at(&mut machine, &mut ram, &[]), (0, 0));
        machine.counter = 0;
        assert_eq!(machine, pushed, "SR {word:04X}");
    }
}

/// Every word at all, popped by POP SR and by RETI: bits 15 and 11 are 1 then,
/// and bits 10, 5 and 3 are 0.
#[test]
fn popped_words_keep_the_fixed_bits() {
    for word in 0..=0xFFFF_u16 {
        for code in [0x03, RETI] {
            let mut machine = at(0, &[(XSP, 0x08)]);
            machine.f_prime = 0x42;
            machine.marks = Marks::from_bits(3);
            let mut ram = memory(0x10, &[code]);
            ram[0x08..0x0A].copy_from_slice(&word.to_le_bytes());
            assert_eq!(step_at(&mut machine, &mut ram, &[]), (0, 0));
            let status = machine.status() as u16;
            assert_eq!(status, requests::popped(word), "{word:04X}");
            assert_eq!(status & 0x8C28, 0x8800);
            assert_eq!(status & 0x73D7, word & 0x73D7);
            // The bank and the level are of SR, and the flags are known.
            assert_eq!(machine.bank, (word >> 8) as u8 & 3);
            assert_eq!(machine.level, (word >> 12) as u8 & 7);
            assert_eq!(machine.marks, Marks::default());
            assert_eq!(machine.f_prime, 0x42);
        }
    }
}

/// POP SR leaves the count and the counter, but for going on.
#[test]
fn pop_sr_takes_two_bytes_and_no_more() {
    let mut machine = busy(3);
    machine.counter = 0;
    machine.set(Width::Long, XSP, 0x10);
    let mut ram = memory(0x20, &[0x03]);
    ram[0x10..0x16].fill(0xFF);
    assert_eq!(step_at(&mut machine, &mut ram, &[]), (0, 0));
    assert_eq!(machine.get(Width::Long, XSP), 0x12);
    assert_eq!((machine.counter, machine.nesting), (1, 0x1234));
}

/// 8 before the stack's 5 and 6, for the marks of F alone; XSP stays.
#[test]
fn push_sr_with_a_mark() {
    push_of_flags(
        0x02,
        &[
            (0x0000_0010, (0, 0)),
            (0x0000_0021, (5, 0x00_0020)),
            (0x0000_0022, (5, 0x00_0020)),
            (0x5580_0000, (5, 0x7F_FFFE)),
            (0x0000_0000, (6, 0xFF_FFFE)),
            (0x0000_0001, (5, 0x00_0000)),
            (0x00FF_FFFA, (6, 0xFF_FFF8)),
        ],
    );
}

// ---- a request that is taken

/// Every mask with every level: by the words of K8, and by the table of 003.
#[test]
fn which_level_is_taken_at_which_mask() {
    let mut taken_in_all = 0;
    for mask in 0..8 {
        for level in 1..=7 {
            let mut machine = busy(mask);
            let mut ram = ram_with_handler();
            let ended = offer(&mut machine, &mut ram, &[], level, VECTOR);
            let least = if mask == 0 { 1 } else { u32::from(mask) };
            let taken = level == 7 || level >= least;
            assert_eq!(ended, (taken, 0, 0), "mask {mask}, level {level}");
            assert_eq!(requests::taken(mask, level), taken);
            if taken {
                let after = if level == 7 { 7 } else { level as u8 + 1 };
                assert_eq!(machine.level, after, "mask {mask}, level {level}");
                assert_eq!(requests::mask_after(level), after);
                taken_in_all += 1;
            }
        }
    }
    assert_eq!(taken_in_all, 7 + 7 + 6 + 5 + 4 + 3 + 2 + 1);
}

/// All that a request does, byte by byte, and nothing else.
#[test]
fn all_that_taking_does() {
    let mut machine = busy(5);
    let mut ram = ram_with_handler();
    // The vector's fourth byte plays no part.
    ram[0x40..0x44].copy_from_slice(&[0xEF, 0xCD, 0xAB, 0x99]);
    ram[0xF8..].fill(0xEE);
    let mut wanted = (machine.clone(), ram.clone());
    assert_eq!(offer(&mut machine, &mut ram, &[], 5, VECTOR), (true, 0, 0));
    wanted.0.set(Width::Long, XSP, 0xFA);
    wanted.0.level = 6;
    wanted.0.nesting = 0x1235;
    wanted.0.counter = 0xAB_CDEF;
    // SR lowest: F 91H, then bank 2, mask 5 and the two ones; the counter.
    wanted.1[0xFA..].copy_from_slice(&[0x91, 0xDA, 0x56, 0x34, 0x12, 0x00]);
    assert_eq!(machine, wanted.0);
    assert_eq!(ram, wanted.1);
}

/// A request that is not taken reads no vector, wherever that is, and looks
/// for no stack.
#[test]
fn not_taken_changes_nothing() {
    for vector in [0, 0xFD, 0xFF, 0x100, 0x80_0000, 0xFF_FFFD, 0xFF_FFFF] {
        for stack in [0, 1, 5, 0x100, 0x105, 0x80_0000, 0xFF_FFF8] {
            for (mask, level) in [(2, 1), (7, 1), (7, 6), (4, 3)] {
                let mut machine = busy(mask);
                machine.set(Width::Long, XSP, stack);
                let (mut ram, rom) = (memory(0x100, &[]), memory(0x10, &[]));
                let ended = offer(&mut machine, &mut ram, &rom, level, vector);
                assert_eq!(ended, (false, 0, 0), "{vector:06X}, XSP {stack:06X}");
            }
        }
    }
}

// ---- the nesting count

#[test]
fn the_count_is_0_after_reset() {
    let (machine, number) = reset(&[], &[0; 256]);
    assert_eq!((machine.nesting, number), (0, 0));
    assert_eq!(Machine::zero().nesting, 0);
    assert_eq!(reset(&[], &[]).0.nesting, 0);
}

/// Up by a request and down by RETI, from every count: round both ways.
#[test]
fn the_count_goes_round() {
    let mut ram = ram_with_handler();
    for nesting in 0..=0xFFFF {
        let mut machine = at(0, &[(XSP, 0x100)]);
        machine.nesting = nesting;
        assert_eq!(offer(&mut machine, &mut ram, &[], 7, VECTOR), (true, 0, 0));
        let more = if nesting == 0xFFFF { 0 } else { nesting + 1 };
        assert_eq!(machine.nesting, more);
        assert_eq!(step_at(&mut machine, &mut ram, &[]), (0, 0));
        assert_eq!(machine.nesting, nesting);
        assert_eq!(machine.counter, 0);

        let mut machine = at(HANDLER, &[(XSP, 0x80)]);
        machine.nesting = nesting;
        assert_eq!(step_at(&mut machine, &mut ram, &[]), (0, 0));
        let less = if nesting == 0 { 0xFFFF } else { nesting - 1 };
        assert_eq!(machine.nesting, less);
    }
}

/// 65,537 requests one within another, and as many RETIs.
#[test]
fn nested_to_the_end_of_the_count() {
    let mut machine = at(0x20, &[]);
    let start = machine.clone();
    let mut ram = ram_with_handler();
    let mut expected = 0_u32;
    for _ in 0..=0x1_0000 {
        // The stack would not hold them all, so each has the same place.
        machine.set(Width::Long, XSP, 0x100);
        assert_eq!(offer(&mut machine, &mut ram, &[], 7, VECTOR), (true, 0, 0));
        expected += 1;
        assert_eq!(u32::from(machine.nesting), expected % 0x1_0000);
    }
    assert_eq!(machine.nesting, 1);
    for _ in 0..=0x1_0000 {
        machine.set(Width::Long, XSP, 0xFA);
        machine.counter = HANDLER;
        assert_eq!(step_at(&mut machine, &mut ram, &[]), (0, 0));
        expected -= 1;
        assert_eq!(u32::from(machine.nesting), expected % 0x1_0000);
    }
    machine.set(Width::Long, XSP, 0);
    machine.counter = 0x20;
    machine.level = start.level;
    assert_eq!(machine, start);
}

// ---- RETI

/// After RETI all is as before the request, but for the marks of F and what
/// lies below the stack.
#[test]
fn reti_undoes_a_request() {
    let mut chance = Chance(8);
    let mut taken = 0;
    for _ in 0..20_000 {
        let mut machine = busy(chance.below(8) as u8);
        machine.bank = chance.below(4) as u8;
        machine.marks = Marks::from_bits(chance.byte());
        machine.marks_prime = Marks::from_bits(chance.byte());
        machine.f = chance.byte() & 0xD7 & !machine.marks.flags();
        machine.f_prime = chance.byte() & 0xD7 & !machine.marks_prime.flags();
        machine.counter = chance.below(0x100_0000);
        machine.nesting = chance.next() as u16;
        machine.set(Width::Long, XSP, chance.next() << 24 | 0x100);
        let mut ram = ram_with_handler();
        let before = machine.clone();
        let level = 1 + chance.below(7);
        let (was_taken, number, _) = offer(&mut machine, &mut ram, &[], level, VECTOR);
        assert_eq!(number, 0);
        if !was_taken {
            continue;
        }
        taken += 1;
        // The marks stand, and what was pushed is 0 where they are.
        assert_eq!((machine.marks, machine.f), (before.marks, before.f));
        assert_eq!(machine.marks_prime, before.marks_prime);
        assert_eq!(ram[0xFA], before.f);
        assert_eq!(ram[0xFA] & before.marks.flags(), 0);
        assert_eq!(step_at(&mut machine, &mut ram, &[]), (0, 0));
        let mut known = before;
        known.marks = Marks::default();
        assert_eq!(machine, known);
    }
    assert!(taken > 10_000, "{taken}");
}

/// The counter keeps its low 24 bits, as RET's does.
#[test]
fn reti_and_ret_keep_24_bits() {
    for high in [0x00, 0x01, 0x80, 0xFF] {
        let mut ram = memory(0x20, &[RETI, 0x0E]);
        ram[0x10..0x16].copy_from_slice(&[0x00, 0x88, 0x56, 0x34, 0x12, high]);
        let mut by_reti = at(0, &[(XSP, 0x10)]);
        let mut by_ret = at(1, &[(XSP, 0x12)]);
        assert_eq!(step_at(&mut by_reti, &mut ram, &[]), (0, 0));
        assert_eq!(step_at(&mut by_ret, &mut ram, &[]), (0, 0));
        assert_eq!((by_reti.counter, by_ret.counter), (0x12_3456, 0x12_3456));
        assert_eq!(by_reti.get(Width::Long, XSP), 0x16);
    }
}

// ---- refusals

/// The memory that holds all of an operand; or the address that tells it missing,
/// by the words of K3.
fn missing(ram: usize, rom: usize, first: u32, size: u32) -> Result<&'static str, u32> {
    let holder = |address: u32| {
        if (address as usize) < ram {
            Some("RAM")
        } else if address as usize + rom >= 0x100_0000 {
            Some("ROM")
        } else {
            None
        }
    };
    let whose = holder(first).ok_or(first)?;
    let mut others = (1..size).map(|more| (first + more) % 0x100_0000);
    match others.find(|&other| holder(other) != Some(whose)) {
        Some(other) => Err(other),
        None => Ok(whose),
    }
}

/// What a request of level 7 answers: the vector's 5, then the stack's, then 6.
fn wanted(ram: usize, rom: usize, vector: u32, stack: u32) -> (bool, u8, u32) {
    let first = stack.wrapping_sub(6) % 0x100_0000;
    match (missing(ram, rom, vector, 4), missing(ram, rom, first, 6)) {
        _ if ram.max(rom) > 65_536 => (false, 1, 0),
        (Err(at), _) | (Ok(_), Err(at)) => (false, 5, at),
        (Ok(_), Ok("ROM")) => (false, 6, first),
        (Ok(_), Ok(_)) => (true, 0, 0),
    }
}

/// Addresses near every end of these memories, and one far from all.
fn near_the_ends(ram: usize, rom: usize) -> Vec<u32> {
    let ends = [0, ram as u32, 0x100_0000 - rom as u32, 0x100_0000];
    let near = |end: u32| (0..16).map(move |more| (end + more).wrapping_sub(8) % 0x100_0000);
    ends.into_iter().flat_map(near).chain([0x80_0000]).collect()
}

/// Every pair of lengths, with vectors and stacks near every end; the highest
/// byte of XSP plays no part.
#[test]
fn vectors_and_stacks_over_the_ends() {
    let mut met = [0; 7];
    for ram in LENGTHS {
        for rom in LENGTHS {
            let (mut bytes, top) = (vec![0; ram], vec![0; rom]);
            for (place, &vector) in near_the_ends(ram, rom).iter().enumerate() {
                for (other, &stack) in near_the_ends(ram, rom).iter().enumerate() {
                    // Long memories take their time, so each meets a few.
                    if ram.max(rom) > 256 && (place + other) % 7 != 0 {
                        continue;
                    }
                    let mut machine = at(0, &[(XSP, stack | 0xAB00_0000)]);
                    let ended = offer(&mut machine, &mut bytes, &top, 7, vector);
                    let wanted = wanted(ram, rom, vector, stack);
                    let label = format!("RAM {ram}, ROM {rom}, {vector:06X}, XSP {stack:06X}");
                    assert_eq!(ended, wanted, "{label}");
                    met[usize::from(ended.1)] += 1;
                    bytes.fill(0);
                }
            }
        }
    }
    for number in [0, 1, 5, 6] {
        assert!(met[number] > 500, "{met:?}");
    }
}

/// RETI's six bytes over the same ends: 5, and never 6.
#[test]
fn reti_over_the_ends() {
    for (ram, rom) in [(6, 0x20), (7, 0x20), (0x20, 6), (0x40, 0x40), (0x100, 5)] {
        for stack in near_the_ends(ram, rom) {
            let (mut bytes, top) = (vec![RETI; ram], vec![RETI; rom]);
            let counter = if ram > 8 { 8 } else { rom_start(&top) + 8 };
            let mut machine = at(counter, &[(XSP, stack | 0xAB00_0000)]);
            let wanted = match missing(ram, rom, stack, 6) {
                Ok(_) => (0, 0),
                Err(at) => (5, at),
            };
            let ended = step_at(&mut machine, &mut bytes, &top);
            assert_eq!(ended, wanted, "RAM {ram}, ROM {rom}, XSP {stack:06X}");
        }
    }
}

/// XSP goes round at 32 bits both ways, and its address at 24.
#[test]
fn xsp_goes_round() {
    let mut ram = ram_with_handler();
    for (stack, after) in [
        (6, 0),
        (0x0100_0006, 0x0100_0000),
        (0xFF00_0007, 0xFF00_0001),
    ] {
        let mut machine = at(0, &[(XSP, stack)]);
        assert_eq!(offer(&mut machine, &mut ram, &[], 7, VECTOR), (true, 0, 0));
        assert_eq!(machine.get(Width::Long, XSP), after);
    }
    // Below 0 there is only ROM, which cannot be written and can be read.
    let mut rom = memory(0x10, &[]);
    rom[0x0A..].copy_from_slice(&[0x00, 0x88, 0x56, 0x34, 0x12, 0x00]);
    let mut machine = at(HANDLER, &[(XSP, 0)]);
    let refused = (false, 6, 0xFF_FFFA);
    assert_eq!(offer(&mut machine, &mut ram, &rom, 7, VECTOR), refused);
    machine.set(Width::Long, XSP, 0xFFFF_FFFA);
    assert_eq!(step_at(&mut machine, &mut ram, &rom), (0, 0));
    assert_eq!(machine.get(Width::Long, XSP), 0);
    assert_eq!(machine.counter, 0x12_3456);
}

/// 9 for each level and each vector address that there cannot be, whatever the
/// mask, the vector and the stack are.
#[test]
fn number_9() {
    let levels = [0, 1, 6, 7, 8, 9, 15, 255, 256, 257, 263, 65_537, u32::MAX];
    let vectors = [
        0,
        VECTOR,
        0x80_0000,
        0xFF_FFFF,
        0x100_0000,
        0x100_0040,
        0x7FFF_FFFF,
        0x8000_0000,
        u32::MAX,
    ];
    for level in levels {
        for vector in vectors {
            for mask in 0..8 {
                for stack in [0x100, 0, 0x80_0000] {
                    let mut machine = busy(mask);
                    machine.set(Width::Long, XSP, stack);
                    let mut ram = ram_with_handler();
                    let rom = memory(0x10, &[]);
                    let (taken, number, at) = offer(&mut machine, &mut ram, &rom, level, vector);
                    let bad = !(1..=7).contains(&level) || vector >= 0x100_0000;
                    assert_eq!(number == 9, bad, "level {level}, vector {vector:X}");
                    assert_eq!(requests::possible(level, vector), !bad);
                    assert!(!bad || (taken, at) == (false, 0));
                }
            }
        }
    }
}

/// 1, then 2, then 9.
#[test]
fn number_9_after_1_and_2() {
    let invalid: [fn(&mut Machine); 5] = [
        |m| m.counter = 0x100_0000,
        |m| m.bank = 4,
        |m| m.level = 8,
        |m| m.f = 0x08,
        |m| (m.f, m.marks.v) = (0x04, true),
    ];
    let requests = [(7, VECTOR), (1, VECTOR), (0, VECTOR), (8, 0), (7, u32::MAX)];
    for (level, vector) in requests {
        for break_it in invalid {
            let mut machine = at(0, &[(XSP, 0x100)]);
            break_it(&mut machine);
            let mut ram = ram_with_handler();
            let ended = offer(&mut machine, &mut ram, &[], level, vector);
            assert_eq!(ended, (false, 2, 0));
            let mut long = vec![0; 65_537];
            let ended = offer(&mut machine, &mut long, &[], level, vector);
            assert_eq!(ended, (false, 1, 0));
            let ended = offer(&mut machine, &mut ram, &long, level, vector);
            assert_eq!(ended, (false, 1, 0));
        }
    }
}

/// The vector is read before the stack is written, however they overlap.
#[test]
fn the_vector_is_read_first() {
    for apart in 0..20 {
        let vector = 0x80 + apart - 10;
        let mut ram = memory(0x100, &[]);
        let place = vector as usize;
        ram[place..place + 4].copy_from_slice(&[0x56, 0x34, 0x12, 0xFF]);
        let mut machine = busy(0);
        machine.set(Width::Long, XSP, 0x86);
        assert_eq!(offer(&mut machine, &mut ram, &[], 1, vector), (true, 0, 0));
        assert_eq!(machine.counter, 0x12_3456);
        assert_eq!(ram[0x80..0x86], [0x91, 0x8A, 0x56, 0x34, 0x12, 0x00]);
    }
}

// ---- together

/// LDIR with a request before every round, whose handler is RETI: it copies as
/// without one, and takes one step more for each.
#[test]
fn requests_among_the_rounds_of_a_copy() {
    let mut ram = ram_with_handler();
    ram[0..2].copy_from_slice(&[0x83, 0x11]);
    ram[0x10..0x18].copy_from_slice(&[1, 2, 3, 4, 5, 6, 7, 8]);
    let mut machine = at(0, &[(XSP, 0x100), (XHL, 0x10), (XDE, 0x20)]);
    machine.set(Width::Word, BC, 8);
    let (mut plain, mut plain_ram) = (machine.clone(), ram.clone());
    assert_eq!(run(&mut plain, &mut plain_ram, &[], 8), (8, 0, 0));
    for _ in 0..8 {
        assert_eq!(offer(&mut machine, &mut ram, &[], 3, VECTOR), (true, 0, 0));
        assert_eq!(run(&mut machine, &mut ram, &[], 2), (2, 0, 0));
    }
    assert_eq!(machine, plain);
    // The last request pushed the flags of the seventh round: V is 1.
    plain_ram[0xFA..].copy_from_slice(&[0x04, 0x88, 0, 0, 0, 0]);
    assert_eq!(ram, plain_ram);
}

/// Each request is taken in the handler of the one below it, up to 7, and 7
/// again; none below comes between. Then RETI leads out of all of them.
#[test]
fn requests_within_requests() {
    let mut ram = ram_with_handler();
    let mut machine = at(0, &[(XSP, 0x100)]);
    let start = machine.clone();
    let mut depth = 0;
    for level in [1, 2, 3, 4, 5, 6, 7, 7, 7] {
        for below in 1..machine.level.min(7) {
            let ended = offer(&mut machine, &mut ram, &[], u32::from(below), VECTOR);
            assert_eq!(ended, (false, 0, 0));
        }
        assert_eq!(
            offer(&mut machine, &mut ram, &[], level, VECTOR),
            (true, 0, 0)
        );
        depth += 1;
        assert_eq!(machine.nesting, depth);
        assert_eq!(machine.get(Width::Long, XSP), 0x100 - 6 * u32::from(depth));
    }
    // The masks that were pushed, the last one first: 7 7 7 6 5 4 3 2 0.
    let pushed: Vec<u8> = ram[0xCA..].chunks(6).map(|frame| frame[1]).collect();
    let masks = [0xF8, 0xF8, 0xF8, 0xE8, 0xD8, 0xC8, 0xB8, 0xA8, 0x88];
    assert_eq!(pushed, masks);
    assert_eq!(run(&mut machine, &mut ram, &[], 9), (9, 0, 0));
    assert_eq!(machine, start);
}
