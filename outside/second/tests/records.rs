//! Saved states, bit by bit.

mod common;

use common::{Chance, XSP, XWA};
use forms::records::{is_new, marks_fit, mend, MARKED};
use second::record::{
    self, BANK, COUNTER, F, F_PRIME, LAST, LENGTH, MARKS, NESTING, OLD_LENGTH, SR, ZERO,
};
use second::{run, Machine, Marks, Width};

/// The record with the free bits as given; but a flag that is 1 is not marked.
fn record_of(free: impl Fn(usize, usize) -> bool) -> [u8; LENGTH] {
    let mut record = [0; LENGTH];
    for (byte, value) in record.iter_mut().enumerate() {
        for bit in 0..8 {
            if free(byte, bit) {
                *value |= 1 << bit;
            }
        }
    }
    mend(&mut record);
    for (mark, place, flag) in MARKED {
        if record[place] & flag != 0 {
            record[MARKS] &= !mark;
        }
    }
    record
}

#[test]
fn every_single_bit() {
    let empty = record_of(|_, _| false);
    let full = record_of(|_, _| true);
    let striped = record_of(|byte, bit| (byte + bit) % 3 == 0);
    let marked = record_of(|byte, bit| byte == MARKS || bit % 2 == 1);
    assert_eq!((full[MARKS], marked[MARKS]), (0, 0x0F));
    for record in [empty, full, striped, marked] {
        assert_eq!(
            Machine::from_record(&record).unwrap().to_record(),
            Ok(record)
        );
        for byte in 0..LENGTH {
            for bit in 0..8 {
                let mut flipped = record;
                flipped[byte] ^= 1 << bit;
                let read = Machine::from_record(&flipped);
                if !is_new(&flipped) {
                    assert_eq!(read, Err(2), "byte {byte} bit {bit}");
                } else {
                    let machine = read.unwrap();
                    assert!(machine.valid());
                    assert_eq!(machine.to_record(), Ok(flipped));
                    assert_ne!(Ok(machine), Machine::from_record(&record));
                }
            }
        }
    }
}

#[test]
fn any_bytes_read_back_or_are_refused() {
    let mut chance = Chance(7);
    let mut taken = 0;
    for round in 0..20_000 {
        let mut record = record_of(|_, _| false);
        for byte in record.iter_mut().take(ZERO) {
            *byte |= chance.byte();
        }
        record[MARKS] = chance.byte() & 0x0F;
        record[NESTING] = chance.byte();
        record[NESTING + 1] = chance.byte();
        // Most such records are wrong somewhere: bring half of them right.
        if round % 2 == 0 {
            let wild = record;
            record = record_of(|byte, bit| wild[byte] >> bit & 1 == 1);
        }
        match Machine::from_record(&record) {
            Ok(machine) => {
                assert!(is_new(&record));
                assert_eq!(machine.to_record(), Ok(record));
                taken += 1;
            }
            Err(number) => {
                assert_eq!(number, 2);
                assert!(!is_new(&record));
            }
        }
    }
    assert!(taken >= 10_000);
}

/// Whether a record with these marks, and these flags in one of the two places,
/// is taken. It is held to the rule.
fn is_taken(marks: u8, place: usize, flags: u8) -> bool {
    let mut record = record_of(|_, _| false);
    record[MARKS] = marks;
    record[F] = 0;
    record[F_PRIME] = 0;
    record[place] = flags;
    let right = marks < 16 && flags & 0x28 == 0 && marks_fit(&record);
    let label = format!("marks {marks:02X}, flags {flags:02X}");
    match Machine::from_record(&record) {
        Ok(machine) => {
            assert_eq!(machine.marks, Marks::from_bits(marks & 3));
            assert_eq!(machine.marks_prime, Marks::from_bits(marks >> 2));
            assert_eq!(machine.to_record(), Ok(record), "{label}");
        }
        Err(number) => assert_eq!(number, 2, "{label}"),
    }
    assert_eq!(Machine::from_record(&record).is_ok(), right, "{label}");
    right
}

/// Every value of the byte with the marks, with every F and every F'.
#[test]
fn marks_with_every_flag() {
    let mut taken = 0;
    for marks in 0..=255 {
        for flags in 0..=255 {
            taken += [F, F_PRIME]
                .iter()
                .filter(|&&place| is_taken(marks, place, flags))
                .count();
        }
    }
    // A flag register has 64 values with no mark, 32 with one and 16 with two;
    // with each of these the other has any of its four pairs of marks.
    assert_eq!(taken, 2 * 4 * (64 + 32 + 32 + 16));
}

#[test]
fn only_92_bytes_are_a_record() {
    let good = record_of(|_, _| false);
    for length in [0, 1, 79, 80, 87, 88, 89, 90, 91, 93, 176, 184, 1000] {
        let mut bytes = good.to_vec();
        bytes.resize(length, 0);
        assert_eq!(Machine::from_record(&bytes), Err(2), "{length} bytes");
    }
}

/// The offsets as numbers, by document 01: banks 0 to 3 (XWA, XBC, XDE, XHL
/// each), XIX, XIY, XIZ, XSP, the counter in four bytes, SR in two, F' in one,
/// a zero byte. A word is the low half of its long; W, B, D, H are the high
/// bytes of that word. Behind these 88 bytes: the nesting count in two, the
/// marks, a zero byte.
#[test]
fn where_everything_lies() {
    let longs = [
        [0, 4, 8, 12, 64, 68, 72, 76],
        [16, 20, 24, 28, 64, 68, 72, 76],
        [32, 36, 40, 44, 64, 68, 72, 76],
        [48, 52, 56, 60, 64, 68, 72, 76],
    ];
    let bytes = [
        [1, 0, 5, 4, 9, 8, 13, 12],
        [17, 16, 21, 20, 25, 24, 29, 28],
        [33, 32, 37, 36, 41, 40, 45, 44],
        [49, 48, 53, 52, 57, 56, 61, 60],
    ];
    for bank in 0..4u8 {
        for code in 0..8u8 {
            let place = |width| record::register(width, code, bank);
            let long = longs[usize::from(bank)][usize::from(code)];
            assert_eq!(place(Width::Long), long..long + 4);
            assert_eq!(place(Width::Word), long..long + 2);
            let byte = bytes[usize::from(bank)][usize::from(code)];
            assert_eq!(place(Width::Byte), byte..byte + 1);
        }
    }
    assert_eq!((COUNTER, SR, F, BANK, F_PRIME), (80, 84, 84, 85, 86));
    assert_eq!((ZERO, NESTING, MARKS, LAST, LENGTH), (87, 88, 90, 91, 92));
    assert_eq!(OLD_LENGTH, 88);
    assert_eq!(record::ZEROS, [87, 91]);
}

/// The registers by code 0 to 7, as document 01 names them, and the long ones of
/// a bank with its number.
#[test]
fn what_everything_is_called() {
    for (width, names) in [
        (Width::Byte, "W A B C D E H L"),
        (Width::Word, "WA BC DE HL IX IY IZ SP"),
        (Width::Long, "XWA XBC XDE XHL XIX XIY XIZ XSP"),
    ] {
        for (code, name) in (0..8).zip(names.split(' ')) {
            let place = record::register(width, code, 0);
            assert_eq!(record::named(name), Some(place), "{name}");
        }
    }
    for bank in 0..4 {
        for (code, name) in (0..4).zip(["XWA", "XBC", "XDE", "XHL"]) {
            let place = record::register(Width::Long, code, bank);
            let named = record::named(&format!("{name}{bank}"));
            assert_eq!(named, Some(place), "{name} of bank {bank}");
        }
    }
    for none in ["PC", "XWA4", "XIX0", "WA2", "XWA20", "XWA ", "2", ""] {
        assert_eq!(record::named(none), None, "{none}");
    }
}

#[test]
fn a_state_in_its_record() {
    let mut machine = Machine::zero();
    let record = machine.to_record().unwrap();
    assert_eq!(record, record_of(|_, _| false));

    machine.counter = 0x12_3456;
    machine.bank = 2;
    machine.level = 5;
    machine.f = 0xD3;
    machine.f_prime = 0x44;
    machine.marks.v = true;
    machine.marks_prime.h = true;
    machine.nesting = 0xABCD;
    machine.set(Width::Long, XWA, 0x0403_0201);
    machine.set(Width::Long, XSP, 0x0807_0605);
    let record = machine.to_record().unwrap();
    assert_eq!(record[record::register(Width::Long, XWA, 2)], [1, 2, 3, 4]);
    assert_eq!(record[record::register(Width::Long, XSP, 2)], [5, 6, 7, 8]);
    assert_eq!(
        record[COUNTER..],
        [0x56, 0x34, 0x12, 0x00, 0xD3, 0xDA, 0x44, 0x00, 0xCD, 0xAB, 0x06, 0x00]
    );
    let others = record[..COUNTER].iter().filter(|&&byte| byte != 0).count();
    assert_eq!(others, 8);
    assert_eq!(machine.status(), 0xDAD3);
}

/// Any nesting count is a state's, low byte first.
#[test]
fn every_nesting_count() {
    for nesting in 0..=0xFFFF {
        let mut machine = Machine::zero();
        machine.nesting = nesting;
        assert!(machine.valid());
        let record = machine.to_record().unwrap();
        assert_eq!(
            record[NESTING..MARKS],
            [nesting as u8, (nesting >> 8) as u8]
        );
        assert_eq!(Machine::from_record(&record), Ok(machine));
    }
}

#[test]
fn an_invalid_state_is_not_saved() {
    let changes: [fn(&mut Machine); 14] = [
        |m| m.counter = 0x100_0000,
        |m| m.counter = 0xFFFF_FFFF,
        |m| m.bank = 4,
        |m| m.bank = 0xFF,
        |m| m.level = 8,
        |m| m.level = 0xFF,
        |m| m.f = 0x08,
        |m| m.f = 0x20,
        |m| m.f_prime = 0x08,
        |m| m.f_prime = 0x20,
        |m| (m.f, m.marks.h) = (0x10, true),
        |m| (m.f, m.marks.v) = (0x04, true),
        |m| (m.f_prime, m.marks_prime.h) = (0x10, true),
        |m| (m.f_prime, m.marks_prime.v) = (0x04, true),
    ];
    for change in changes {
        let mut machine = Machine::zero();
        change(&mut machine);
        assert!(!machine.valid());
        assert_eq!(machine.to_record(), Err(2));
        assert_eq!(run(&mut machine, &mut [], &[], 0), (0, 2, 0));
    }
}

/// Every bank, level and flag byte, valid or not.
#[test]
fn validity_is_exactly_the_stated_rules() {
    for value in 0..=255u8 {
        let mut machine = Machine::zero();
        machine.bank = value;
        assert_eq!(machine.valid(), value < 4);
        let mut machine = Machine::zero();
        machine.level = value;
        assert_eq!(machine.valid(), value < 8);
        let mut machine = Machine::zero();
        machine.f = value;
        assert_eq!(machine.valid(), value & 0x28 == 0);
        let mut machine = Machine::zero();
        machine.f_prime = value;
        assert_eq!(machine.valid(), value & 0x28 == 0);
        for (bits, never) in [(0, 0x28), (1, 0x38), (2, 0x2C), (3, 0x3C)] {
            let mut machine = Machine::zero();
            machine.f = value;
            machine.marks = Marks::from_bits(bits);
            assert_eq!(machine.valid(), value & never == 0);
            std::mem::swap(&mut machine.f, &mut machine.f_prime);
            std::mem::swap(&mut machine.marks, &mut machine.marks_prime);
            assert_eq!(machine.valid(), value & never == 0);
        }
    }
    let mut machine = Machine::zero();
    machine.counter = 0xFF_FFFF;
    assert!(machine.valid());
}
