//! Multiply, divide and modulo steps (K7): every operand code, what is written and
//! what is kept, and every number that MINC and MDEC may have.

mod common;

use common::{draw_flags, memory, rom_start, step_from, Chance};
use forms::banks::{place_written, Size, SIZES};
use forms::feed::{self, DIV, DIVS, SCALES, STEPS};
use forms::{marks, Form};
use second::record::{BANK, COUNTER, F, LENGTH, MARKS};
use second::{run, show, Machine, Width};
use std::ops::Range;

const V: u8 = 0x04;

/// A record of drawn registers, flags, marks and count.
fn drawn_record(chance: &mut Chance, bank: u8) -> [u8; LENGTH] {
    let mut record = [0; LENGTH];
    record[..COUNTER].fill_with(|| chance.byte());
    draw_flags(chance, &mut record, bank);
    record
}

fn value(record: &[u8], place: &Range<usize>) -> u32 {
    let bytes = record[place.clone()].iter().rev();
    bytes.fold(0, |high, &byte| high << 8 | u32::from(byte))
}

/// A first byte with r or with a code behind it, and the bytes of r, if any.
struct Named {
    size: Size,
    first: Vec<u8>,
    place: Option<Range<usize>>,
}

/// Every r of every size, and every code behind C7, D7 and E7.
fn every_named(bank: u8) -> Vec<Named> {
    let of_size = |size: Size| {
        let plain = (0..8).map(move |r| Named {
            size,
            first: vec![size.plain + r],
            place: Some(size.plain(r, bank)),
        });
        let any = (0..=255).map(move |code| Named {
            size,
            first: vec![size.any, code],
            place: size.named(code, bank),
        });
        plain.chain(any)
    };
    SIZES.into_iter().flat_map(of_size).collect()
}

/// What stands behind the second byte: a number for MINC and MDEC, or anything.
fn rest(chance: &mut Chance, second: u8) -> [u8; 4] {
    let [mut a, mut b, c, d] = chance.next().to_le_bytes();
    if let Some(step) = feed::step(second) {
        let numbers: Vec<u16> = step.numbers().collect();
        [a, b] = step.coded(numbers[chance.below(numbers.len() as u32) as usize]);
    }
    [a, b, c, d]
}

/// What a step that was done must have left. A product or a quotient is taken as it
/// was left, and then held to what makes it one.
fn left(named: &Named, before: &[u8; LENGTH], after: &[u8; LENGTH], code: &[u8]) -> [u8; LENGTH] {
    let Named { size, first, place } = named;
    let r = place.clone().expect("a register");
    let (second, rest) = (code[first.len()], &code[first.len() + 1..]);
    let to = place_written(*size, &r, second, before[BANK] & 3);
    let mut wanted = *before;
    wanted[COUNTER] = code.len() as u8;
    wanted[MARKS] = marks::after(code, before[MARKS]);
    if let Some(step) = feed::step(second) {
        let number = step.number([rest[0], rest[1]]).expect("a number");
        let moved = step.after(value(before, &to) as u16, number);
        wanted[to].copy_from_slice(&moved.to_le_bytes());
        return wanted;
    }
    let scale = feed::scale(second).expect("MUL to DIVS");
    let by = match rest {
        [] => value(before, &r),
        constant => value(constant, &(0..size.bytes)),
    };
    let v = after[F] & V != 0;
    let right = scale.leaves(*size, value(before, &to), by, value(after, &to), v);
    assert!(right, "{code:02X?}: {before:02X?} to {after:02X?}");
    if scale.divides {
        wanted[F] = before[F] & !V | after[F] & V;
    }
    wanted[to.clone()].copy_from_slice(&after[to]);
    wanted
}

/// Every r, every code behind C7, D7 and E7, with every second byte of K7, in every
/// bank: taken or refused as the list has it, and what it must leave.
#[test]
fn every_operand_code() {
    let forms = forms::listed();
    let mut chance = Chance(7);
    let (mut done, mut with_v) = (0, 0);
    for bank in 0..4 {
        for named in every_named(bank) {
            for second in feed::second_bytes() {
                let rest = rest(&mut chance, second);
                let code = [&named.first[..], &[second], &rest].concat();
                let (number, length) = forms::judged(&forms, &code);
                let before = drawn_record(&mut chance, bank);
                let (got, after) = step_from(before, &code);
                assert_eq!(got, number, "{code:02X?}");
                if number == 0 {
                    let wanted = left(&named, &before, &after, &code[..length]);
                    assert_eq!(after, wanted, "{code:02X?} in bank {bank}");
                    done += 1;
                    with_v += u32::from(second & 0xF0 == 0x50 && after[F] & V != 0);
                }
            }
        }
    }
    // Bytes: 8 and 112 registers, half of them lower halves; words: 8 and 56, of
    // which all 8 and 28 are; R of each size; six modulo steps of words.
    let bytes = (8 + 112) * 16 + (4 + 56) * 4;
    let words = (8 + 56) * (32 + 6) + (8 + 28) * 4;
    assert_eq!(done, 4 * (bytes + words));
    assert!(with_v > 1_000, "only {with_v} did not fit");
}

/// The registers by their names, as 000's tables of RR and rr have them.
#[test]
fn the_tables_of_registers() {
    let bytes = [(1, 0..2), (3, 4..6), (5, 8..10), (7, 12..14)];
    let by_code = [
        (0xF0, 64..66),
        (0xF4, 68..70),
        (0xF8, 72..74),
        (0xFC, 76..78),
    ];
    let words: [usize; 8] = [0, 4, 8, 12, 64, 68, 72, 76];
    let mut tables: Vec<(Vec<u8>, Range<usize>)> = Vec::new();
    for (r, place) in bytes {
        tables.push((vec![0xC8 + r, 0x08, 3], place.clone()));
        // By a register that is no part of it.
        let other = (r + 2) % 8;
        tables.push((vec![0xC8 + other, 0x40 + r], place));
    }
    for (code, place) in by_code {
        tables.push((vec![0xC7, code, 0x08, 3], place));
    }
    for (r, first) in (0..8).zip(words) {
        tables.push((vec![0xD8 + r, 0x08, 3, 0], first..first + 4));
        tables.push((vec![0xD8 + (r + 1) % 8, 0x40 + r], first..first + 4));
    }
    for (code, place) in tables {
        let mut record = [0; LENGTH];
        record[BANK] = 0x88;
        record[..COUNTER].fill(3);
        let (number, after) = step_from(record, &code);
        let mut wanted = record;
        wanted[COUNTER] = code.len() as u8;
        let half = place.len() / 2;
        // 3 by 3 is 9, and 303H by 3 is 909H, by 303H 91B09H.
        let product: u32 = match (half, code[1] == 0x08) {
            (1, _) => 3 * 3,
            (_, true) => 0x303 * 3,
            (_, false) => 0x303 * 0x303,
        };
        wanted[place.clone()].copy_from_slice(&product.to_le_bytes()[..2 * half]);
        assert_eq!((number, after), (0, wanted), "{code:02X?}");
    }
}

/// Code that ends where its memory ends, in RAM and in ROM.
fn judge(code: &[u8], wanted: u8) {
    let length = if wanted == 0 { code.len() } else { 0 };
    for (ram, rom, at) in [(code, &[][..], 0), (&[][..], code, rom_start(code))] {
        let (bytes, number) = show(ram, rom, at);
        assert_eq!((bytes.len(), number), (length, wanted), "{code:02X?}");
    }
}

/// Each of the six with each of 65,536 words behind it: 15, 14 or 13 are numbers.
#[test]
fn every_word_as_a_number() {
    for step in STEPS {
        let least = 2 * step.by.unsigned_abs();
        let numbers: Vec<u32> = (1..=15).map(|n| 1 << n).filter(|&n| n >= least).collect();
        let coded: Vec<u16> = numbers.iter().map(|n| (n - least / 2) as u16).collect();
        for word in 0..=0xFFFF_u16 {
            let [low, high] = word.to_le_bytes();
            let wanted = if coded.contains(&word) { 0 } else { 4 };
            judge(&[0xDC, step.second, low, high], wanted);
            judge(&[0xD7, 0x22, step.second, low, high], wanted);
        }
        for low in 0..=255 {
            let begins = coded.iter().any(|word| word.to_le_bytes()[0] == low);
            let wanted = if begins { 3 } else { 4 };
            judge(&[0xDC, step.second, low], wanted);
            judge(&[0xD7, 0x22, step.second, low], wanted);
        }
    }
}

/// A register or a code that does not fit is judged at the byte 08 to 0B.
#[test]
fn the_register_is_judged_before_the_constant() {
    for constant in SCALES.map(|scale| scale.with_constant) {
        for r in 0..8 {
            judge(&[0xC8 + r, constant], if r % 2 == 1 { 3 } else { 4 });
            judge(&[0xD8 + r, constant], 3);
            judge(&[0xD8 + r, constant, 0], 3);
            judge(&[0xE8 + r, constant], 4);
        }
        for code in (0x00..=0x3F).chain(0xD0..=0xFF) {
            judge(&[0xC7, code, constant], if code % 2 == 0 { 3 } else { 4 });
            judge(&[0xD7, code, constant], if code % 4 == 0 { 3 } else { 4 });
            judge(&[0xE7, code, constant], 4);
        }
    }
}

/// No memory form has any of the four.
#[test]
fn memory_forms_are_not_listed() {
    for first in (0x80..=0xBF).chain([0xC0, 0xC1, 0xC2, 0xD0, 0xD1, 0xD2, 0xF0, 0xF1, 0xF2]) {
        let address = match first {
            0x80..=0xBF => usize::from(first >> 3 & 1),
            _ => usize::from(first & 3) + 1,
        };
        let stores = matches!(first, 0xB0..=0xBF | 0xF0..=0xFF);
        for last in 0x40..=0x5F {
            let code = [&[first], &[0; 3][..address], &[last]].concat();
            // LD (R),R byte and word have these codes behind B0 and F0.
            let listed = stores && last & 8 == 0;
            judge(&code, if listed { 0 } else { 4 });
        }
    }
}

/// Every dividend of a word by some constants, in forty registers a run. What V is
/// by each is not seen.
#[test]
fn quotients_of_every_register() {
    for (scale, by) in [(DIV, 0x35), (DIVS, 0x35), (DIVS, 0xCB), (DIV, 0), (DIVS, 0)] {
        let codes = (0x00..0x40_u8).chain(0xF0..=0xFF).step_by(2);
        let rom: Vec<u8> = codes
            .flat_map(|code| [0xC7, code, scale.with_constant, by])
            .collect();
        for first in (0..0x1_0000).step_by(40) {
            let mut record = [0; LENGTH];
            record[BANK] = 0x88;
            for (value, place) in (first..).zip((0..COUNTER).step_by(2)) {
                record[place..place + 2].copy_from_slice(&(value as u16).to_le_bytes());
            }
            let mut machine = Machine::from_record(&record).unwrap();
            machine.counter = rom_start(&rom);
            assert_eq!(run(&mut machine, &mut [], &rom, 40), (40, 0, 0));
            let after = machine.to_record().unwrap();
            for place in (0..COUNTER).step_by(2).map(|first| first..first + 2) {
                let (before, after) = (value(&record, &place), value(&after, &place));
                let leaves = |v| scale.leaves(SIZES[0], before, u32::from(by), after, v);
                assert!(leaves(false) || leaves(true), "{before:04X} to {after:04X}");
            }
        }
    }
}

/// A feed: a table of eight words is gone round, each is multiplied and divided.
#[test]
fn a_feed_calculation() {
    let code = [
        0xDC, 0x39, 0x0E, 0x00, // MINC2 10H,IX
        0x94, 0x20, // LD WA,(XIX)
        0xD8, 0x08, 0xE8, 0x03, // MUL XWA,1000
        0xD9, 0x50, // DIV XWA,BC
        0x64, 0xF2, // JR V, to the start
        0xD8, 0x83, // ADD HL,WA
        0x68, 0xEE, // JR, to the start
    ];
    let mut ram = memory(0x40, &code);
    for (place, value) in (0x20..)
        .step_by(2)
        .zip([7_u16, 0, 500, 3, 60_000, 9, 1, 40])
    {
        ram[place..place + 2].copy_from_slice(&value.to_le_bytes());
    }
    let mut machine = Machine::zero();
    machine.set(Width::Long, 4, 0x20);
    machine.set(Width::Word, 1, 300);
    // 60,000,000 by 300 does not fit: two steps fewer.
    assert_eq!(run(&mut machine, &mut ram, &[], 8 * 7 - 2), (54, 0, 0));
    // Round to the first again.
    assert_eq!((machine.counter, machine.get(Width::Word, 4)), (0, 0x20));
    let sum = [0, 500, 3, 9, 1, 40, 7].map(|value| value * 1000 / 300);
    let sum: u32 = sum.iter().sum();
    assert_eq!((machine.get(Width::Word, 3), machine.f & V), (sum, 0));
}

/// The forms of K7 are all there: so many codes begin with each first byte.
#[test]
fn so_many_codes() {
    let forms = forms::listed();
    let of_k7 =
        |form: &&Form| form.name.starts_with("MUL to DIVS") || form.name.starts_with("MINC");
    let kinds = forms.iter().filter(of_k7).flat_map(Form::kinds).count();
    // Four in two sizes by r and by a constant, and by K1's constants; six modulo
    // steps, whose numbers have two lines, by 01's registers and by K1's.
    assert_eq!(kinds, 4 * 2 * 3 + 6 * 2 * 2);
}
