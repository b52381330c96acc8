//! All the bank registers (K1): what each code byte behind C7, D7 and E7 names,
//! and that a register does the same however it is named.

mod common;

use common::{draw_flags, memory, rom_start, step_from, step_once, Chance};
use forms::banks::{overlap, place_written, stand_ins, Size, SIZES};
use forms::feed;
use second::record::{COUNTER, LENGTH};
use second::{run, show, Machine, Width};
use std::collections::BTreeSet;
use std::ops::Range;

/// 003's tables of names (lines 346 to 386), a line for each long register: bytes
/// from the highest down, words in round brackets, the long in pointed ones.
const NAMES: &str = "
    QW   (QWA)  QA   <XWA>  W   (WA)   A
    QB   (QBC)  QC   <XBC>  B   (BC)   C
    QD   (QDE)  QE   <XDE>  D   (DE)   E
    QH   (QHL)  QL   <XHL>  H   (HL)   L
    QW'  (QWA') QA'  <XWA'> W'  (WA')  A'
    QB'  (QBC') QC'  <XBC'> B'  (BC')  C'
    QD'  (QDE') QE'  <XDE'> D'  (DE')  E'
    QH'  (QHL') QL'  <XHL'> H'  (HL')  L'
    QIXH (QIX)  QIXL <XIX>  IXH (IX)   IXL
    QIYH (QIY)  QIYL <XIY>  IYH (IY)   IYL
    QIZH (QIZ)  QIZL <XIZ>  IZH (IZ)   IZL
    QSPH (QSP)  QSPL <XSP>  SPH (SP)   SPL
    QW0  (QWA0) QA0  <XWA0> RW0 (RWA0) RA0
    QB0  (QBC0) QC0  <XBC0> RB0 (RBC0) RC0
    QD0  (QDE0) QE0  <XDE0> RD0 (RDE0) RE0
    QH0  (QHL0) QL0  <XHL0> RH0 (RHL0) RL0
    QW1  (QWA1) QA1  <XWA1> RW1 (RWA1) RA1
    QB1  (QBC1) QC1  <XBC1> RB1 (RBC1) RC1
    QD1  (QDE1) QE1  <XDE1> RD1 (RDE1) RE1
    QH1  (QHL1) QL1  <XHL1> RH1 (RHL1) RL1
    QW2  (QWA2) QA2  <XWA2> RW2 (RWA2) RA2
    QB2  (QBC2) QC2  <XBC2> RB2 (RBC2) RC2
    QD2  (QDE2) QE2  <XDE2> RD2 (RDE2) RE2
    QH2  (QHL2) QL2  <XHL2> RH2 (RHL2) RL2
    QW3  (QWA3) QA3  <XWA3> RW3 (RWA3) RA3
    QB3  (QBC3) QC3  <XBC3> RB3 (RBC3) RC3
    QD3  (QDE3) QE3  <XDE3> RD3 (RDE3) RE3
    QH3  (QHL3) QL3  <XHL3> RH3 (RHL3) RL3
";

/// What each code names, by size, sixteen codes a line from the first on. A code
/// that is not here, or has a stroke, names nothing.
const MAPS: [&str; 3] = [
    "
    00 RA0 RW0 QA0  QW0  RC0 RB0 QC0  QB0  RE0 RD0 QE0  QD0  RL0 RH0 QL0  QH0
    10 RA1 RW1 QA1  QW1  RC1 RB1 QC1  QB1  RE1 RD1 QE1  QD1  RL1 RH1 QL1  QH1
    20 RA2 RW2 QA2  QW2  RC2 RB2 QC2  QB2  RE2 RD2 QE2  QD2  RL2 RH2 QL2  QH2
    30 RA3 RW3 QA3  QW3  RC3 RB3 QC3  QB3  RE3 RD3 QE3  QD3  RL3 RH3 QL3  QH3
    D0 A'  W'  QA'  QW'  C'  B'  QC'  QB'  E'  D'  QE'  QD'  L'  H'  QL'  QH'
    E0 A   W   QA   QW   C   B   QC   QB   E   D   QE   QD   L   H   QL   QH
    F0 IXL IXH QIXL QIXH IYL IYH QIYL QIYH IZL IZH QIZL QIZH SPL SPH QSPL QSPH
    ",
    "
    00 RWA0 - QWA0 - RBC0 - QBC0 - RDE0 - QDE0 - RHL0 - QHL0 -
    10 RWA1 - QWA1 - RBC1 - QBC1 - RDE1 - QDE1 - RHL1 - QHL1 -
    20 RWA2 - QWA2 - RBC2 - QBC2 - RDE2 - QDE2 - RHL2 - QHL2 -
    30 RWA3 - QWA3 - RBC3 - QBC3 - RDE3 - QDE3 - RHL3 - QHL3 -
    D0 WA'  - QWA' - BC'  - QBC' - DE'  - QDE' - HL'  - QHL' -
    E0 WA   - QWA  - BC   - QBC  - DE   - QDE  - HL   - QHL  -
    F0 IX   - QIX  - IY   - QIY  - IZ   - QIZ  - SP   - QSP  -
    ",
    "
    00 XWA0 - - - XBC0 - - - XDE0 - - - XHL0 - - -
    10 XWA1 - - - XBC1 - - - XDE1 - - - XHL1 - - -
    20 XWA2 - - - XBC2 - - - XDE2 - - - XHL2 - - -
    30 XWA3 - - - XBC3 - - - XDE3 - - - XHL3 - - -
    D0 XWA' - - - XBC' - - - XDE' - - - XHL' - - -
    E0 XWA  - - - XBC  - - - XDE  - - - XHL  - - -
    F0 XIX  - - - XIY  - - - XIZ  - - - XSP  - - -
    ",
];

/// The bank with a dash, by the current one.
const DASHED: [usize; 4] = [3, 0, 1, 2];

/// A line of [`NAMES`] without its brackets.
fn plain_names(line: &str) -> Vec<&str> {
    let words = line.split_whitespace();
    words
        .map(|word| word.trim_matches(['(', ')', '<', '>']))
        .collect()
}

/// The bytes of a record that a name of 003 means while this bank is current.
fn place(name: &str, bank: usize) -> Range<usize> {
    // Where the parts of a line begin in their long, and where they end.
    const PARTS: [Range<usize>; 7] = [3..4, 2..4, 2..3, 0..4, 1..2, 0..2, 0..1];
    let lines = NAMES.trim().lines().map(plain_names);
    let mut found = lines.enumerate().filter_map(|(line, names)| {
        let part = names.iter().position(|&known| known == name)?;
        let long = match line / 4 {
            0 => bank * 16,
            1 => DASHED[bank] * 16,
            2 => 64,
            number => (number - 3) * 16,
        } + line % 4 * 4;
        Some(long + PARTS[part].start..long + PARTS[part].end)
    });
    let place = found.next().unwrap_or_else(|| panic!("no {name} in 003"));
    assert_eq!(found.next(), None, "{name} is there twice");
    place
}

/// For each code from 00 to FF what it names.
fn map(text: &'static str) -> Vec<Option<&'static str>> {
    let mut map = vec![None; 256];
    for line in text.trim().lines() {
        let (first, names) = line.trim().split_once(' ').unwrap();
        let first = usize::from_str_radix(first, 16).unwrap();
        let names: Vec<&str> = names.split_whitespace().collect();
        assert_eq!(names.len(), 16, "{line}");
        for (code, name) in (first..).zip(names) {
            map[code] = (name != "-").then_some(name);
        }
    }
    map
}

/// Goes through every size, every code from 00 to FF and every bank: with the
/// bytes that the code names, if it names any.
fn each_code(mut work: impl FnMut(Size, u8, u8, Option<Range<usize>>)) {
    for (size, text) in SIZES.into_iter().zip(MAPS) {
        for (code, name) in map(text).into_iter().enumerate() {
            for bank in 0..4 {
                let named = name.map(|name| place(name, bank));
                work(size, code as u8, bank as u8, named);
            }
        }
    }
}

/// A record whose register bytes all differ, with any flags, marks and count.
fn telling_record(chance: &mut Chance, bank: u8) -> [u8; LENGTH] {
    let mut record = [0; LENGTH];
    let (start, step) = (chance.byte(), chance.byte() | 1);
    for (place, byte) in record.iter_mut().enumerate().take(COUNTER) {
        *byte = start.wrapping_add(step.wrapping_mul(place as u8));
    }
    draw_flags(chance, &mut record, bank);
    record
}

/// All 196 names of 003 have a code, and none has two.
#[test]
fn the_maps_have_every_name_once() {
    let in_003 = NAMES.trim().lines().flat_map(plain_names);
    let in_maps = MAPS.into_iter().flat_map(|text| map(text).into_iter());
    let mut in_003: Vec<&str> = in_003.collect();
    let mut in_maps: Vec<&str> = in_maps.flatten().collect();
    assert_eq!(in_003.len(), 4 * 7 * 7);
    in_003.sort();
    in_maps.sort();
    assert_eq!(in_maps, in_003);
}

/// Some that K1 and the books tell by themselves.
#[test]
fn some_names_by_themselves() {
    for (size, code, bank, wanted) in [
        (0, 0x20, 0, 32..33), // RA2
        (0, 0x00, 3, 0..1),   // RA0
        (0, 0x01, 3, 1..2),   // RW0
        (0, 0x02, 3, 2..3),   // QA0
        (0, 0x03, 3, 3..4),   // QW0
        (2, 0xD0, 0, 48..52), // XWA' in bank 0 is of bank 3
        (2, 0xD0, 3, 32..36), // XWA' in bank 3 is of bank 2, as 003 says
        (1, 0xF0, 0, 64..66), // IX, as 000 says of MUL
        (1, 0xFC, 0, 76..78), // SP, as 000 says of MUL
    ] {
        let name = map(MAPS[size])[code].unwrap();
        assert_eq!(place(name, bank), wanted, "{name}");
    }
}

/// The list of codes, and what else `forms` has of the map, agree with it.
#[test]
fn the_list_has_the_same_map() {
    let forms = forms::listed();
    each_code(|size, code, bank, named| {
        let of_size = forms.iter().filter(|form| form.slots[0].takes(size.any));
        for form in of_size {
            // MUL to DIVS by a constant write a register of twice the size.
            let whole = form.slots[2].takes(0x08);
            let taken = match &named {
                Some(lower) if whole => size.whole(lower.clone()).is_some(),
                named => named.is_some(),
            };
            assert_eq!(form.slots[1].takes(code), taken, "{}", form.name);
        }
        assert_eq!(size.named(code, bank), named, "{code:02X} in bank {bank}");
    });
    let of_01 = [
        "W A B C D E H L",
        "WA BC DE HL IX IY IZ SP",
        "XWA XBC XDE XHL XIX XIY XIZ XSP",
    ];
    for (size, names) in SIZES.into_iter().zip(of_01) {
        let lines = forms.iter().filter(|form| form.slots[0].takes(size.any));
        assert!(lines.count() >= 3);
        for (r, name) in names.split(' ').enumerate() {
            for bank in 0..4 {
                let plain = size.plain(r as u8, bank as u8);
                assert_eq!(plain, place(name, bank), "{name} in bank {bank}");
            }
        }
    }
}

/// A constant goes to the bytes that are named and nowhere else.
#[test]
fn every_code_is_loaded_with_a_constant() {
    let mut chance = Chance(1);
    let mut done = 0;
    each_code(|size, code, bank, named| {
        let constant = &[0xA1, 0xB2, 0xC3, 0xD4][..size.bytes];
        let bytes = [&[size.any, code, 0x03], constant].concat();
        let record = telling_record(&mut chance, bank);
        let (number, got) = step_from(record, &bytes);
        let Some(named) = named else {
            assert_eq!(number, 4, "{bytes:02X?}");
            return;
        };
        let mut wanted = record;
        wanted[named].copy_from_slice(constant);
        wanted[COUNTER] = bytes.len() as u8;
        assert_eq!((number, got), (0, wanted), "{bytes:02X?} in bank {bank}");
        done += 1;
    });
    assert_eq!(done, 4 * 196);
}

/// LD R,r and LD r,R, with every R.
#[test]
fn every_code_is_loaded_both_ways() {
    let mut chance = Chance(2);
    each_code(|size, code, bank, named| {
        let Some(named) = named else { return };
        for r in 0..8 {
            let beside = size.plain(r, bank);
            for (second, from, to) in [(0x88 + r, &named, &beside), (0x98 + r, &beside, &named)] {
                let record = telling_record(&mut chance, bank);
                let mut wanted = record;
                wanted.copy_within(from.clone(), to.start);
                wanted[COUNTER] = 3;
                let got = step_from(record, &[size.any, code, second]);
                assert_eq!(got, (0, wanted), "{code:02X} {second:02X} in bank {bank}");
            }
        }
    });
}

/// Code that ends where its memory ends, in RAM and in ROM: shown, and stepped
/// where it is refused.
fn judge(code: &[u8], wanted: u8) {
    let length = if wanted == 0 { code.len() } else { 0 };
    let start = rom_start(code);
    for (mut ram, rom, at) in [(code.to_vec(), &[][..], 0), (vec![], code, start)] {
        let (bytes, number) = show(&ram, rom, at);
        assert_eq!((bytes.len(), number), (length, wanted), "{code:02X?}");
        let mut machine = Machine::zero();
        machine.counter = at;
        let number = step_once(&mut machine, &mut ram, rom);
        assert_eq!(number, wanted, "{code:02X?}");
    }
}

/// 3 and 4 at the byte that forces them: for every code, with nothing behind it.
#[test]
fn every_code_is_judged_before_what_follows() {
    for size in SIZES {
        judge(&[size.any], 3);
    }
    each_code(|size, code, _, named| {
        judge(&[size.any, code], if named.is_some() { 3 } else { 4 });
        let (extension, wrong) = ([size.any, code, 0x12], [size.any, code, 0x00]);
        let extends = named.is_some() && size.bytes > 1;
        judge(&extension, if extends { 0 } else { 4 });
        judge(&wrong, 4);
    });
}

/// The same for what comes behind a good code.
#[test]
fn numbers_3_and_4_behind_a_code() {
    let cases: &[(&[u8], u8)] = &[
        (&[0xC7, 0x3F, 0x03], 3),
        (&[0xC7, 0x3F, 0x03, 0x00], 0),
        (&[0xC7, 0x3F, 0xEC], 3),
        (&[0xC7, 0x3F, 0xEC, 0x0F], 0),
        (&[0xC7, 0x3F, 0xEC, 0x10], 4),
        (&[0xC7, 0x3F, 0x12], 4),
        (&[0xC7, 0x3F, 0x13], 4),
        (&[0xC7, 0x3F, 0xC7], 0),
        (&[0xC7, 0x3F, 0xA8], 4),
        (&[0xC7, 0x3F, 0xE8], 4),
        (&[0xC7, 0x3F, 0xF8], 4),
        (&[0xC7, 0x3F, 0x20], 4),
        (&[0xC7, 0xC7], 4),
        (&[0xC7, 0xD7, 0xD7], 0),
        (&[0xD7, 0x3E, 0xCF, 0x00], 3),
        (&[0xD7, 0x3E, 0xCF, 0x00, 0x00], 0),
        (&[0xE7, 0xFC, 0xC8, 0x00, 0x00, 0x00], 3),
        (&[0xE7, 0xFC, 0xC8, 0x00, 0x00, 0x00, 0x00], 0),
    ];
    for &(code, number) in cases {
        judge(code, number);
    }
}

/// The longest instructions, at the very end of each memory: all seven bytes,
/// and cut after each of them.
#[test]
fn seven_bytes_at_the_end_of_a_memory() {
    for code in [0x00, 0x24, 0xD8, 0xEC, 0xFC] {
        for second in [0x03, 0xC8, 0xCF] {
            let whole = [0xE7, code, second, 0x44, 0x33, 0x22, 0x11];
            judge(&whole, 0);
            for there in 1..7 {
                judge(&whole[..there], 3);
            }
        }
    }
    // XBC2 becomes 11223344H, and 22446688H; the counter goes round behind ROM.
    let constant = [0x44, 0x33, 0x22, 0x11];
    let code =
        [[0xE7, 0x24, 0x03], [0xE7, 0x24, 0xC8]].map(|first| [&first[..], &constant].concat());
    let rom = code.concat();
    let mut machine = Machine::zero();
    machine.counter = rom_start(&rom);
    assert_eq!(run(&mut machine, &mut [], &rom, 2), (2, 0, 0));
    let record = machine.to_record().unwrap();
    assert_eq!(record[36..40], [0x88, 0x66, 0x44, 0x22]);
    assert_eq!(machine.counter, 0);
}

/// Code of a register form behind its first bytes. Shift counts may be too great,
/// and MINC and MDEC may have a number that is none.
fn rest(chance: &mut Chance, second: u8) -> [u8; 5] {
    let [mut a, mut b, c, d] = chance.next().to_le_bytes();
    if second >= 0xEC {
        a &= 0x1F;
    }
    if let Some(step) = feed::step(second) {
        let numbers: Vec<u16> = step.numbers().collect();
        let number = numbers[chance.below(numbers.len() as u32) as usize];
        [a, b] = step.coded(number ^ u16::from(c % 8 == 0));
    }
    [second, a, b, c, d]
}

/// The 24 registers that 01 has: every second byte does the same by either code,
/// flags and marks with it, and both refuse the same.
#[test]
fn the_registers_of_01_both_ways() {
    let mut chance = Chance(3);
    let mut ways = BTreeSet::new();
    each_code(|size, code, bank, named| {
        let Some(named) = named else { return };
        let Some(r) = (0..8).find(|&r| size.plain(r, bank) == named) else {
            return;
        };
        ways.insert((size.any, bank, r, code));
        for second in 0..=255 {
            let record = telling_record(&mut chance, bank);
            let rest = rest(&mut chance, second);
            let by_01 = step_from(record, &[&[size.plain + r], &rest[..]].concat());
            let (number, mut got) = step_from(record, &[&[size.any, code], &rest[..]].concat());
            if number == 0 {
                got[COUNTER] -= 1;
            }
            assert_eq!((number, got), by_01, "{code:02X} {rest:02X?}");
        }
    });
    // In a bank by its number and by E0 to EF; what is shared by F0 to FF alone.
    assert_eq!(ways.len(), 4 * (2 * 8 + 2 * 4 + 4 + 2 * 4 + 4));
}

/// Exchanges the bytes of two registers.
fn exchange(record: &mut [u8; LENGTH], one: &Range<usize>, other: &Range<usize>) {
    let before = *record;
    record[other.clone()].copy_from_slice(&before[one.clone()]);
    record[one.clone()].copy_from_slice(&before[other.clone()]);
}

/// A register that 01 has no code for does what one of 01's does: if they change
/// places before and after, nothing differs but the counter. One that is a half of
/// what the form writes beside it cannot change places.
#[test]
fn every_register_is_as_good_as_one_of_01() {
    let mut chance = Chance(4);
    let (mut done, mut halves) = (0, 0);
    each_code(|size, code, bank, named| {
        let Some(named) = named else { return };
        if (0..8).any(|r| size.plain(r, bank) == named) {
            return;
        }
        for second in 0..=255 {
            let mut record = telling_record(&mut chance, bank);
            let rest = rest(&mut chance, second);
            let (number, mut got) = step_from(record, &[&[size.any, code], &rest[..]].concat());
            let Some(place) = size.taken(second, named.clone()) else {
                assert_eq!(number, 4, "{code:02X} {rest:02X?}");
                continue;
            };
            if overlap(&place, &size.beside(second, bank)) {
                halves += 1;
                continue;
            }
            let stand_ins = stand_ins(size, second, bank);
            let (r, plain) = &stand_ins[chance.below(stand_ins.len() as u32) as usize];
            exchange(&mut record, &place, plain);
            let by_01 = step_from(record, &[&[size.plain + r], &rest[..]].concat());
            exchange(&mut got, &place, plain);
            if number == 0 {
                got[COUNTER] -= 1;
                done += 1;
            }
            assert_eq!((number, got), by_01, "{code:02X} {rest:02X?} as {r}");
        }
    });
    assert!(done > 50_000, "only {done} were done");
    // In each bank: four upper halves by two codes, four by one; MUL to DIVS.
    assert_eq!(halves, 4 * (4 * 2 + 4) * 4);
}

/// What the list in `forms` says is written is all that is.
#[test]
fn nothing_else_is_written() {
    let mut chance = Chance(5);
    each_code(|size, code, bank, named| {
        let Some(named) = named else { return };
        for second in 0..=255 {
            let before = telling_record(&mut chance, bank);
            let rest = rest(&mut chance, second);
            let (_, after) = step_from(before, &[&[size.any, code], &rest[..]].concat());
            let may_change = place_written(size, &named, second, bank);
            for place in (0..COUNTER).filter(|place| !may_change.contains(place)) {
                assert_eq!(after[place], before[place], "{code:02X} {second:02X}");
            }
        }
    });
}

/// A count is kept in bank 2 while bank 0 does the work.
#[test]
fn a_count_in_another_bank() {
    let code = [
        0xC7, 0x3F, 0x03, 0x77, // LD QH3,77H
        0x21, 0x05, // LD A,5
        0xD7, 0x20, 0x61, // INC 1,RWA2
        0xC7, 0x3F, 0x88, // LD W,QH3
        0xC9, 0x69, // DEC 1,A
        0x6E, 0xF6, // JR NZ, to INC
        0x17, 0x02, // LDF 2
    ];
    let mut ram = memory(0x20, &code);
    let mut machine = Machine::zero();
    assert_eq!(run(&mut machine, &mut ram, &[], 2 + 5 * 4), (22, 0, 0));
    let mut wanted = [0; LENGTH];
    (wanted[32], wanted[63], wanted[1]) = (5, 0x77, 0x77);
    assert_eq!(machine.to_record().unwrap()[..COUNTER], wanted[..COUNTER]);
    assert_eq!(run(&mut machine, &mut ram, &[], 1), (1, 0, 0));
    assert_eq!((machine.bank, machine.get(Width::Byte, 1)), (2, 5));
}

/// In bank 0 the dashed bank is bank 3, and in each other the one before it.
#[test]
fn the_dashed_bank() {
    let code = [0xE7, 0xDC, 0x03, 0x44, 0x33, 0x22, 0x11];
    for (bank, before) in [(0, 3), (1, 0), (2, 1), (3, 2)] {
        let mut machine = Machine::zero();
        machine.bank = bank;
        let mut ram = code.to_vec();
        assert_eq!(step_once(&mut machine, &mut ram, &[]), 0);
        machine.bank = before;
        let xhl = machine.get(Width::Long, 3);
        assert_eq!(xhl, 0x1122_3344, "in bank {bank}");
    }
    // What DECF leaves is the dashed bank of before.
    let code = [&code[..], &[0x0D, 0xEB, 0x88]].concat();
    let mut machine = Machine::zero();
    let mut ram = code.to_vec();
    assert_eq!(run(&mut machine, &mut ram, &[], 3), (3, 0, 0));
    assert_eq!(machine.get(Width::Long, 0), 0x1122_3344);
}
