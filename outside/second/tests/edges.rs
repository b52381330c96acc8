//! The ends of the memories, of the stack and of the registers.

mod common;

use common::{at, memory, rom_start, step_at, step_once, A, LENGTHS, WA, XBC, XHL, XIX, XSP, XWA};
use second::record::register;
use second::{reset, run, show, Machine, Width};

const TOP: u32 = 0x100_0000;

/// Which memory holds one byte, by the words of document 01.
fn holder(ram: &[u8], rom: &[u8], address: u32) -> Option<&'static str> {
    if (address as usize) < ram.len() {
        Some("RAM")
    } else if address < TOP && address as usize + rom.len() >= TOP as usize {
        Some("ROM")
    } else {
        None
    }
}

/// Which memory holds so many bytes from an address on, looked up one by one
/// and with 000000H after FFFFFFH, which is a different memory or none.
fn whole_holder(ram: &[u8], rom: &[u8], address: u32, size: u32) -> Option<&'static str> {
    let mut holders = (0..size).map(|more| holder(ram, rom, (address + more) % TOP));
    let first = holders.next().unwrap();
    let round = address + size > TOP;
    if !round && holders.all(|other| other == first) {
        first
    } else {
        None
    }
}

/// The address that goes with a number, by the ends of the memories: what
/// begins in RAM goes on past the end of RAM, what begins in ROM past the top.
fn told_address(ram: &[u8], rom: &[u8], first: u32, number: u8) -> u32 {
    match (number, holder(ram, rom, first)) {
        (5, Some("RAM")) => ram.len() as u32,
        (5, Some(_)) => 0,
        (5 | 6, _) => first,
        _ => 0,
    }
}

/// Addresses around every end.
fn addresses(ram: &[u8], rom: &[u8]) -> Vec<u32> {
    let ends = [0, ram.len() as u32, TOP - rom.len() as u32, TOP, 0x80_0000];
    let mut all: Vec<u32> = ends
        .iter()
        .flat_map(|&end| (end.saturating_sub(5)..end + 5).filter(|&address| address < TOP))
        .collect();
    all.sort_unstable();
    all.dedup();
    all
}

/// Puts code where both its bytes are, if they fit anywhere.
fn place(code: [u8; 2], ram: &mut [u8], rom: &mut [u8]) -> Option<u32> {
    if rom.len() >= 2 {
        let middle = (rom.len() - 2) / 2;
        rom[middle..middle + 2].copy_from_slice(&code);
        Some(rom_start(rom) + middle as u32)
    } else if ram.len() >= 2 {
        let middle = (ram.len() - 2) / 2;
        ram[middle..middle + 2].copy_from_slice(&code);
        Some(middle as u32)
    } else {
        None
    }
}

/// Every pair of lengths, every width, every address near an end: loads,
/// stores, and operations that read and store.
#[test]
fn operands_over_the_ends() {
    let mut tried = 0;
    for ram_length in LENGTHS {
        for rom_length in LENGTHS {
            let too_long = ram_length.max(rom_length) > 65_536;
            for (size, load, store, add) in [
                (1, [0x84, 0x20], [0xB4, 0x40], [0x84, 0x88]),
                (2, [0x94, 0x20], [0xB4, 0x50], [0x94, 0x88]),
                (4, [0xA4, 0x20], [0xB4, 0x60], [0xA4, 0x88]),
            ] {
                for code in [load, store, add] {
                    let mut ram = vec![0x11; ram_length];
                    let mut rom = vec![0x22; rom_length];
                    let Some(counter) = place(code, &mut ram, &mut rom) else {
                        continue;
                    };
                    for address in addresses(&ram, &rom) {
                        let wanted = match whole_holder(&ram, &rom, address, size) {
                            _ if too_long => 1,
                            None => 5,
                            Some("ROM") if code != load => 6,
                            Some(_) => 0,
                        };
                        let wanted = (wanted, told_address(&ram, &rom, address, wanted));
                        let mut fresh = ram.clone();
                        let mut machine = at(counter, &[(XIX, address | 0x5500_0000)]);
                        let ended = step_at(&mut machine, &mut fresh, &rom);
                        assert_eq!(
                            ended, wanted,
                            "{code:02X?} at {address:06X}, RAM {ram_length}, ROM {rom_length}"
                        );
                        tried += 1;
                    }
                }
            }
        }
    }
    assert!(tried > 5_000, "only {tried}");
}

/// Code that runs into the end of its memory, for every pair of lengths.
#[test]
fn code_over_the_ends() {
    for ram_length in LENGTHS {
        for rom_length in LENGTHS {
            let too_long = ram_length.max(rom_length) > 65_536;
            // LD R,n16 in every place: three bytes wherever it starts.
            let ram = vec![0x30; ram_length];
            let rom = vec![0x31; rom_length];
            for address in addresses(&ram, &rom) {
                let held = whole_holder(&ram, &rom, address, 3);
                let wanted = match held {
                    _ if too_long => 1,
                    None => 3,
                    Some(_) => 0,
                };
                let (bytes, number) = show(&ram, &rom, address);
                assert_eq!(number, wanted, "show {address:06X}");
                match held {
                    Some("RAM") if number == 0 => assert_eq!(bytes, [0x30; 3]),
                    Some("ROM") if number == 0 => assert_eq!(bytes, [0x31; 3]),
                    _ => assert_eq!(bytes, [0; 0]),
                }
                let mut machine = at(address, &[]);
                let mut fresh = ram.clone();
                let number = step_once(&mut machine, &mut fresh, &rom);
                assert_eq!(number, wanted, "step {address:06X}");
                if number == 0 {
                    assert_eq!(machine.counter, (address + 3) % TOP);
                }
            }
        }
    }
}

/// What is shown is the memory itself, not a copy.
#[test]
fn the_bytes_shown_are_a_part_of_the_memory() {
    let ram = memory(256, &[0x00, 0x33, 0x34, 0x12]);
    let rom = memory(256, &[0x00, 0x43, 0x78, 0x56, 0x34, 0x12]);
    let (bytes, number) = show(&ram, &rom, 1);
    assert_eq!((bytes, number), (&ram[1..4], 0));
    assert_eq!(bytes.as_ptr(), ram[1..].as_ptr());
    let (bytes, number) = show(&ram, &rom, 0xFF_FF01);
    assert_eq!((bytes, number), (&rom[1..6], 0));
    assert_eq!(bytes.as_ptr(), rom[1..].as_ptr());
    let (bytes, number) = show(&ram, &rom, 256);
    assert_eq!((bytes, number), (&rom[..0], 3));
}

#[test]
fn a_whole_instruction_at_the_top_leaves_the_counter_at_0() {
    for code in [&[0x00][..], &[0x21, 0x07], &[0xC9, 0x8A]] {
        let start = rom_start(code);
        let mut machine = at(start, &[]);
        assert_eq!(step_once(&mut machine, &mut [], code), 0);
        assert_eq!(machine.counter, 0);
    }
    // And a call from there pushes 0.
    let code = [0x1C, 0x34, 0x12];
    let mut machine = at(rom_start(&code), &[(XSP, 4)]);
    let mut ram = [0xEE; 5];
    assert_eq!(step_once(&mut machine, &mut ram, &code), 0);
    assert_eq!(ram, [0, 0, 0, 0, 0xEE]);
    assert_eq!(machine.counter, 0x1234);
}

#[test]
fn jumps_go_round_the_addresses() {
    // JR +127 from the last two bytes.
    let code = [0x68, 0x7F];
    let mut machine = at(rom_start(&code), &[]);
    assert_eq!(step_once(&mut machine, &mut [], &code), 0);
    assert_eq!(machine.counter, 0x7F);
    // JRL -32768 from address 0.
    let mut machine = at(0, &[]);
    let mut ram = [0x78, 0x00, 0x80];
    assert_eq!(step_once(&mut machine, &mut ram, &[]), 0);
    assert_eq!(machine.counter, 0xFF_8003);
}

/// Pushing: XSP goes round at 32 bits, the address at 24, and what would
/// lie over the top is missing.
#[test]
fn the_stack_at_its_ends() {
    let push_byte = [0x18];
    let push_word = [0x28];
    let push_long = [0x38];
    let cases: &[(&[u8; 1], u32, u8, u32)] = &[
        (&push_byte, 1, 0, 0),
        (&push_byte, 0, 6, 0),
        (&push_word, 2, 0, 0),
        (&push_word, 1, 5, 0),
        (&push_word, 0, 6, 0),
        (&push_long, 4, 0, 0),
        (&push_long, 3, 5, 0),
        (&push_long, 1, 5, 0),
        (&push_long, 0, 6, 0),
        (&push_byte, 0x1_0000, 0, 0xFFFF),
        (&push_byte, 0x1_0001, 5, 0),
        (&push_word, 0x1_0000, 0, 0xFFFE),
        (&push_word, 0x1_0001, 5, 0),
        (&push_long, 0x1_0000, 0, 0xFFFC),
        (&push_long, 0x1_0003, 5, 0),
        (&push_word, 0x7700_0002, 0, 0x7700_0000),
        (&push_word, 0x7700_0000, 6, 0),
    ];
    for &(code, pointer, number, after) in cases {
        // The code is in ROM, 16 bytes of it, so that RAM is all stack.
        let rom = memory(16, code);
        let mut ram = vec![0xEE; 65_536];
        let mut machine = at(rom_start(&rom), &[(XSP, pointer)]);
        machine.f = 0;
        let label = format!("{code:02X?}, XSP {pointer:08X}");
        assert_eq!(step_once(&mut machine, &mut ram, &rom), number, "{label}");
        if number == 0 {
            assert_eq!(machine.get(Width::Long, XSP), after, "{label}");
            let first = after as usize % 0x1_0000;
            let size = pointer.wrapping_sub(after) as usize;
            assert!(ram[first..first + size].iter().all(|&byte| byte == 0));
            let touched = ram.iter().filter(|&&byte| byte == 0).count();
            assert_eq!(touched, size, "{label}");
        }
    }
}

#[test]
fn popping_at_the_ends() {
    let mut rom = memory(16, &[0x19, 0x48, 0x58, 0x0E]);
    rom[12..].copy_from_slice(&[0x0D, 0x0C, 0x0B, 0x0A]);
    let start = rom_start(&rom);
    let (pop_f, pop_wa, pop_xwa, ret) = (start, start + 1, start + 2, start + 3);
    let cases = [
        (pop_f, 0xFFFF_FFFF, 0, 0),
        (pop_f, 0x00FF_FFFF, 0, 0x0100_0000),
        (pop_wa, 0xFFFF_FFFE, 0, 0),
        (pop_wa, 0xFFFF_FFFF, 5, 0),
        (pop_xwa, 0xFFFF_FFFC, 0, 0),
        (pop_xwa, 0xFFFF_FFFD, 5, 0),
        (ret, 0xFFFF_FFFC, 0, 0),
        (ret, 0xFFFF_FFFE, 5, 0),
        (pop_f, 0xFFFF, 0, 0x1_0000),
        (pop_f, 0x1_0000, 5, 0),
        (pop_wa, 0xFFFE, 0, 0x1_0000),
        (pop_wa, 0xFFFF, 5, 0),
        (pop_xwa, 0xFFFC, 0, 0x1_0000),
        (pop_xwa, 0xFFFD, 5, 0),
        (ret, 0xFFFC, 0, 0x1_0000),
        (ret, 0xFFFF, 5, 0),
    ];
    for (counter, pointer, number, after) in cases {
        let mut ram = vec![0; 65_536];
        let mut machine = at(counter, &[(XSP, pointer)]);
        let label = format!("{counter:06X}, XSP {pointer:08X}");
        assert_eq!(step_once(&mut machine, &mut ram, &rom), number, "{label}");
        if number == 0 {
            assert_eq!(machine.get(Width::Long, XSP), after, "{label}");
        }
    }
    let mut machine = at(ret, &[(XSP, 0xFFFF_FFFC)]);
    assert_eq!(step_once(&mut machine, &mut [], &rom), 0);
    assert_eq!(machine.counter, 0x0B_0C0D);
}

/// Displacements reach below 0 and over the top, at 32 and at 24 bits.
#[test]
fn displacements_go_round() {
    let rom = [0x8C, 0xFF, 0x21, 0x99]; // LD A,(XIX-1)
    let mut machine = at(rom_start(&rom), &[(XIX, 0)]);
    assert_eq!(step_once(&mut machine, &mut [], &rom), 0);
    assert_eq!(machine.get(Width::Byte, A), 0x99);

    let rom = [0x8C, 0x01, 0x21, 0x99]; // LD A,(XIX+1)
    for pointer in [0xFFFF_FFFF, 0x00FF_FFFF, 0x12FF_FFFF] {
        let mut machine = at(rom_start(&rom), &[(XIX, pointer)]);
        let mut ram = [0x77];
        assert_eq!(step_once(&mut machine, &mut ram, &rom), 0);
        assert_eq!(machine.get(Width::Byte, A), 0x77);
        assert_eq!(machine.get(Width::Long, XIX), pointer);
    }
}

/// A memory of length 0 holds nothing; one of length 1 holds one byte.
#[test]
fn the_shortest_memories() {
    assert_eq!(show(&[], &[], 0).1, 3);
    assert_eq!(show(&[0x00], &[], 0), (&[0x00][..], 0));
    assert_eq!(show(&[0x00], &[], 1).1, 3);
    assert_eq!(show(&[], &[0x00], 0xFF_FFFF), (&[0x00][..], 0));
    assert_eq!(show(&[], &[0x00], 0xFF_FFFE).1, 3);
    let mut machine = at(0xFF_FFFF, &[]);
    // NOP in ROM, NOP in RAM, then nothing.
    assert_eq!(run(&mut machine, &mut [0x00], &[0x00], 9), (2, 3, 0));
    assert_eq!(machine.counter, 1);
}

/// A store to the very bytes of the instruction is done; the next step finds
/// the new bytes.
#[test]
fn each_step_fetches_afresh() {
    // LD (XIX),W puts 0C (INCF) over the first byte of what follows.
    let mut ram = [0xB4, 0x40, 0x01];
    let mut machine = at(0, &[(XIX, 2), (XWA, 0x0C00)]);
    assert_eq!(run(&mut machine, &mut ram, &[], 5), (2, 3, 0));
    assert_eq!(machine.bank, 1);
    // And over itself.
    let mut ram = [0xB4, 0x50, 0x00];
    let mut machine = at(0, &[(XIX, 0), (XWA, 0x0C0D)]);
    assert_eq!(step_once(&mut machine, &mut ram, &[]), 0);
    assert_eq!(ram, [0x0D, 0x0C, 0x00]);
}

/// The banks are four sets of registers; the other four are one set.
#[test]
fn banks_hold_apart_what_is_theirs() {
    let mut machine = Machine::zero();
    for bank in 0..4 {
        machine.bank = bank;
        for code in 0..8 {
            let value = 0x0101_0101 * (1 + u32::from(code) + 16 * u32::from(bank));
            machine.set(Width::Long, code, value);
        }
    }
    for bank in 0..4 {
        machine.bank = bank;
        for code in 0..8u8 {
            let kept = if code < 4 { bank } else { 3 };
            let value = 1 + u32::from(code) + 16 * u32::from(kept);
            assert_eq!(machine.get(Width::Long, code), 0x0101_0101 * value);
        }
    }
    let record = machine.to_record().unwrap();
    for bank in 0..4u8 {
        for code in 0..8u8 {
            let kept = if code < 4 { bank } else { 3 };
            let part = &record[register(Width::Long, code, bank)];
            assert_eq!(part, [1 + code + 16 * kept; 4]);
        }
    }
}

/// A byte or word write leaves the other bytes of the register alone.
#[test]
fn parts_of_registers() {
    for code in 0..8 {
        let mut machine = at(0, &[(code, 0x1122_3344)]);
        machine.set(Width::Word, code, 0xAABB);
        assert_eq!(machine.get(Width::Long, code), 0x1122_AABB);
        assert_eq!(machine.get(Width::Word, code), 0xAABB);
    }
    for pair in 0..4 {
        let mut machine = at(0, &[(pair, 0x1122_3344)]);
        assert_eq!(machine.get(Width::Byte, 2 * pair), 0x33);
        assert_eq!(machine.get(Width::Byte, 2 * pair + 1), 0x44);
        machine.set(Width::Byte, 2 * pair, 0xAA);
        assert_eq!(machine.get(Width::Long, pair), 0x1122_AA44);
        machine.set(Width::Byte, 2 * pair + 1, 0xBB);
        assert_eq!(machine.get(Width::Long, pair), 0x1122_AABB);
    }
}

/// Word and long registers go round at their own width in every bank.
#[test]
fn registers_go_round_in_their_bank() {
    for bank in 0..4 {
        let mut machine = Machine::zero();
        machine.bank = bank;
        machine.set(Width::Long, XBC, 0x0001_0000);
        machine.set(Width::Long, XHL, 0xFFFF_FFFF);
        machine.f = 0xD7;
        let mut ram = [0xD9, 0x69, 0xEB, 0x61]; // DEC 1,BC; INC 1,XHL
        assert_eq!(run(&mut machine, &mut ram, &[], 2), (2, 0, 0));
        assert_eq!(machine.get(Width::Long, XBC), 0x0001_FFFF);
        assert_eq!(machine.get(Width::Long, XHL), 0);
        assert_eq!(machine.f, 0xD7);
    }
}

#[test]
fn reset_at_every_length() {
    for ram_length in LENGTHS {
        for rom_length in LENGTHS {
            let ram = vec![0xEE; ram_length];
            let mut rom = vec![0xEE; rom_length];
            let wanted = if ram_length.max(rom_length) > 65_536 {
                1
            } else if rom_length < 256 {
                5
            } else {
                0
            };
            if rom_length >= 256 {
                let vector = rom_length - 256;
                rom[vector..vector + 4].copy_from_slice(&[0x56, 0x34, 0x12, 0xFF]);
            }
            let (machine, number) = reset(&ram, &rom);
            assert_eq!(number, wanted);
            let mut fresh = Machine::zero();
            if number == 0 {
                fresh.counter = 0x12_3456;
                fresh.level = 7;
                fresh.set(Width::Long, XSP, 0x100);
            }
            assert_eq!(machine, fresh);
            assert!(machine.valid());
        }
    }
}

/// ROM at the very top, its operands read there.
#[test]
fn word_operands_at_the_top_of_rom() {
    let rom = [0x94, 0x20, 0xCD, 0xAB]; // LD WA,(XIX)
    let start = rom_start(&rom);
    let mut machine = at(start, &[(XIX, start + 2)]);
    assert_eq!(step_once(&mut machine, &mut [], &rom), 0);
    assert_eq!(machine.get(Width::Word, WA), 0xABCD);
    let mut machine = at(start, &[(XIX, start + 3)]);
    assert_eq!(step_once(&mut machine, &mut [0x00], &rom), 5);
}
