//! Every register code, in every bank, in every field that can hold one; and
//! how a bank is selected.

mod common;

use common::{memory, step_once, XSP};
use second::record::{register, BANK, COUNTER, F, F_PRIME, LENGTH, MARKS};
use second::{Machine, Width};

/// The first code byte of the register forms, by width.
const WIDTHS: [(u8, Width); 3] = [
    (0xC8, Width::Byte),
    (0xD8, Width::Word),
    (0xE8, Width::Long),
];

/// A record in which every register byte differs, at a bank and a counter.
fn telling_record(bank: u8) -> [u8; LENGTH] {
    let mut record = [0; LENGTH];
    for (place, byte) in record.iter_mut().enumerate().take(COUNTER) {
        *byte = 0x40 + place as u8;
    }
    record[BANK] = 0x88 + bank;
    record
}

/// Steps code at address 0 from a record; the record after, and RAM.
fn after(record: [u8; LENGTH], code: &[u8], length: usize) -> ([u8; LENGTH], Vec<u8>) {
    let mut machine = Machine::from_record(&record).unwrap();
    let mut ram = memory(length, code);
    assert_eq!(step_once(&mut machine, &mut ram, &[]), 0, "{code:02X?}");
    (machine.to_record().unwrap(), ram)
}

#[test]
fn every_pair_of_registers_is_loaded_both_ways() {
    for bank in 0..4 {
        for (first, width) in WIDTHS {
            for small in 0..8u8 {
                for large in 0..8u8 {
                    let record = telling_record(bank);
                    let r = register(width, small, bank);
                    let other = register(width, large, bank);
                    let mut wanted = record;
                    wanted.copy_within(r.clone(), other.start);
                    wanted[COUNTER] = 2;
                    let (got, _) = after(record, &[first + small, 0x88 + large], 2);
                    assert_eq!(got, wanted, "LD R,r");
                    let mut wanted = record;
                    wanted.copy_within(other, r.start);
                    wanted[COUNTER] = 2;
                    let (got, _) = after(record, &[first + small, 0x98 + large], 2);
                    assert_eq!(got, wanted, "LD r,R");
                }
            }
        }
    }
}

/// SUB R,r: R less r into R, whichever registers they are.
#[test]
fn every_pair_of_registers_is_subtracted() {
    let number = |bytes: &[u8]| {
        let mut four = [0; 4];
        four[..bytes.len()].copy_from_slice(bytes);
        u32::from_le_bytes(four)
    };
    for bank in 0..4 {
        for (first, width) in WIDTHS {
            for small in 0..8u8 {
                for large in 0..8u8 {
                    let record = telling_record(bank);
                    let r = register(width, small, bank);
                    let other = register(width, large, bank);
                    let less = number(&record[other.clone()]).wrapping_sub(number(&record[r]));
                    let (mut got, _) = after(record, &[first + small, 0xA0 + large], 2);
                    let mut wanted = record;
                    wanted[other].copy_from_slice(&less.to_le_bytes()[..width.bytes()]);
                    wanted[COUNTER] = 2;
                    assert_eq!(got[F] & 0x02, 2, "N");
                    // The other flags, and their marks, are looked at elsewhere.
                    got[F] = 0;
                    got[MARKS] = 0;
                    assert_eq!(got, wanted);
                }
            }
        }
    }
}

/// Loads through every pointer into every register, and stores back.
#[test]
fn every_pointer_with_every_register() {
    for bank in 0..4 {
        for (index, (_, width)) in WIDTHS.into_iter().enumerate() {
            let size = width.bytes();
            let load = 0x80 + 0x10 * index as u8;
            let store = 0x40 + 0x10 * index as u8;
            for base in 0..8u8 {
                for code in 0..8u8 {
                    // The pointer is 20H; the operand is with or without a
                    // displacement of 3.
                    let mut record = telling_record(bank);
                    let pointer = register(Width::Long, base, bank);
                    record[pointer].copy_from_slice(&[0x20, 0, 0, 0xEE]);
                    let part = register(width, code, bank);

                    for (bytes, at) in [
                        (vec![load + base, 0x20 + code], 0x20),
                        (vec![load + 8 + base, 0x03, 0x20 + code], 0x23),
                    ] {
                        let mut wanted = record;
                        wanted[COUNTER] = bytes.len() as u8;
                        wanted[part.clone()].copy_from_slice(&[0xA1, 0xA2, 0xA3, 0xA4][..size]);
                        let mut beginning = memory(0x28, &bytes);
                        beginning[at..at + 4].copy_from_slice(&[0xA1, 0xA2, 0xA3, 0xA4]);
                        assert_eq!(after(record, &beginning, 0x28).0, wanted);
                    }

                    for (bytes, at) in [
                        (vec![0xB0 + base, store + code], 0x20),
                        (vec![0xB8 + base, 0x03, store + code], 0x23),
                    ] {
                        let mut wanted = memory(0x28, &bytes);
                        wanted[at..at + size].copy_from_slice(&record[part.clone()]);
                        let (got, ram) = after(record, &bytes, 0x28);
                        assert_eq!(ram, wanted);
                        assert_eq!(got[..COUNTER], record[..COUNTER]);
                    }
                }
            }
        }
    }
}

/// Constants into every register, by both codes.
#[test]
fn every_register_is_loaded_with_a_constant() {
    for bank in 0..4 {
        for (index, (first, width)) in WIDTHS.into_iter().enumerate() {
            let short = 0x20 + 0x10 * index as u8;
            for code in 0..8u8 {
                let record = telling_record(bank);
                let constant = &[0xA1, 0xA2, 0xA3, 0xA4][..width.bytes()];
                for beginning in [vec![short + code], vec![first + code, 0x03]] {
                    let bytes = [&beginning[..], constant].concat();
                    let mut wanted = record;
                    wanted[register(width, code, bank)].copy_from_slice(constant);
                    wanted[COUNTER] = bytes.len() as u8;
                    assert_eq!(after(record, &bytes, bytes.len()).0, wanted);
                }
            }
        }
    }
}

/// Pushes and pops of every listed register.
#[test]
fn every_register_is_pushed_and_popped() {
    for bank in 0..4 {
        for (push, pop, width) in [(0x28, 0x48, Width::Word), (0x38, 0x58, Width::Long)] {
            let size = width.bytes();
            let pointer = register(Width::Long, XSP, bank);
            for code in 0..7u8 {
                let mut record = telling_record(bank);
                record[pointer.clone()].copy_from_slice(&[0x10, 0, 0, 0]);
                let part = register(width, code, bank);

                let mut wanted = record;
                wanted[COUNTER] = 1;
                wanted[pointer.start] = 0x10 - size as u8;
                let mut pushed = memory(0x20, &[push + code]);
                pushed[0x10 - size..0x10].copy_from_slice(&record[part.clone()]);
                assert_eq!(after(record, &[push + code], 0x20), (wanted, pushed));

                let mut ram = memory(0x20, &[pop + code]);
                ram[0x10..0x14].copy_from_slice(&[0xA1, 0xA2, 0xA3, 0xA4]);
                let mut wanted = record;
                wanted[COUNTER] = 1;
                wanted[pointer.start] = 0x10 + size as u8;
                wanted[part].copy_from_slice(&[0xA1, 0xA2, 0xA3, 0xA4][..size]);
                assert_eq!(after(record, &ram, 0x20), (wanted, ram));
            }
        }
    }
}

/// LDF n leaves just what LDF of n modulo 4 leaves: that bank, the counter
/// past the code, and all else as it was.
#[test]
fn every_bank_is_selected_by_two_numbers() {
    for bank in 0..4 {
        let mut record = telling_record(bank);
        record[BANK] |= 0x50; // level 5
        record[F] = 0xD7;
        record[F_PRIME] = 0x42;
        for num in 0..8u8 {
            let mut wanted = record;
            wanted[BANK] = 0xD8 + num % 4;
            wanted[COUNTER] = 2;
            let (got, ram) = after(record, &[0x17, num], 2);
            assert_eq!(got, wanted, "LDF {num} in bank {bank}");
            assert_eq!(ram, [0x17, num]);
        }
    }
}
