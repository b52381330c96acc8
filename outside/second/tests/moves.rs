//! K9's moves between the old record and the new one, sentence by sentence.

mod common;

use common::Chance;
use forms::records;
use second::{narrow, widen, Machine, Marks};

/// The registers of a state: no two bytes are alike.
fn registers() -> Vec<u8> {
    (1..=80).collect()
}

/// An old record: the counter 123456H, bank 2, level 5, F C3H, F' 81H. No flag
/// that could be marked is 1.
fn old() -> Vec<u8> {
    let rest = [0x56, 0x34, 0x12, 0x00, 0xC3, 0xDA, 0x81, 0x00];
    [&registers()[..], &rest].concat()
}

/// The new record of the same state.
fn new() -> Vec<u8> {
    let rest = [0x56, 0x34, 0x12, 0x00, 0xC3, 0xDA, 0x81, 0x00, 0, 0, 0, 0];
    [&registers()[..], &rest].concat()
}

/// That record with some of its bytes changed.
fn new_with(changes: &[(usize, u8)]) -> Vec<u8> {
    let mut record = new();
    for &(place, value) in changes {
        record[place] = value;
    }
    record
}

/// Moves a record to a room that held noise, and gives the number and what the
/// room holds then. A refusal must leave it.
fn moved(work: fn(&[u8], &mut [u8]) -> u8, record: &[u8], room: usize) -> (u8, Vec<u8>) {
    let mut chance = Chance(room as u64);
    let before: Vec<u8> = (0..room).map(|_| chance.byte()).collect();
    let mut after = before.clone();
    let number = work(record, &mut after);
    if number != 0 {
        assert_eq!(after, before, "{number} changed the room");
    }
    (number, after)
}

fn widened(old: &[u8]) -> (u8, Vec<u8>) {
    moved(widen, old, 92)
}

fn narrowed(new: &[u8]) -> (u8, Vec<u8>) {
    moved(narrow, new, 88)
}

/// One byte that makes a record bad, in the old form and in the new one.
const BAD: [(usize, u8); 13] = [
    (83, 0x01), // a counter of 1123456H
    (83, 0x80),
    (84, 0xCB), // bit 3 of F
    (84, 0xE3), // bit 5 of F
    (85, 0xDE), // bit 10 of SR is 1
    (85, 0xD2), // bit 11 of SR is 0
    (85, 0x5A), // bit 15 of SR is 0
    (85, 0x00),
    (86, 0x89), // bit 3 of F'
    (86, 0xA1), // bit 5 of F'
    (87, 0x01), // not a zero byte
    (87, 0x80),
    (87, 0xFF),
];

/// One byte that makes the new record bad, among its last four.
const BAD_BEHIND: [(usize, u8); 7] = [
    (90, 0x10), // no marks
    (90, 0x20),
    (90, 0x40),
    (90, 0x80),
    (91, 0x01), // not a zero byte
    (91, 0x80),
    (91, 0xFF),
];

/// One byte that the old form has no place for.
const UNHELD: [(usize, u8); 11] = [
    (88, 0x01), // the count is 1
    (88, 0x80),
    (88, 0xFF),
    (89, 0x01), // the count is 256
    (89, 0x80),
    (89, 0xFF),
    (90, 0x01), // H of F is marked
    (90, 0x02), // V of F
    (90, 0x04), // H of F'
    (90, 0x08), // V of F'
    (90, 0x0F),
];

/// A mark whose flag is 1, and that flag's byte.
const BOTH_AT_ONCE: [(u8, usize, u8); 4] = [
    (0x01, 84, 0xD3),
    (0x02, 84, 0xC7),
    (0x04, 86, 0x91),
    (0x08, 86, 0x85),
];

#[test]
fn the_same_bytes_and_four_zeros() {
    assert_eq!(widened(&old()), (0, new()));
    assert_eq!(narrowed(&new()), (0, old()));
}

#[test]
fn a_bad_record() {
    for (place, value) in BAD {
        let record = new_with(&[(place, value)]);
        let label = format!("{value:02X} at {place}");
        assert_eq!(widened(&record[..88]).0, 2, "{label}");
        assert_eq!(narrowed(&record).0, 2, "{label}");
    }
    for (place, value) in BAD_BEHIND {
        let record = new_with(&[(place, value)]);
        assert_eq!(narrowed(&record).0, 2, "{value:02X} at {place}");
    }
}

#[test]
fn what_the_old_form_cannot_hold() {
    for (place, value) in UNHELD {
        let record = new_with(&[(place, value)]);
        assert_eq!(narrowed(&record).0, 10, "{value:02X} at {place}");
    }
    // Only a mark and its own flag do not go together.
    for (mark, place, flags) in BOTH_AT_ONCE {
        let others = |row: &&(u8, usize, u8)| row.0 != mark;
        for &(other, _, _) in BOTH_AT_ONCE.iter().filter(others) {
            let record = new_with(&[(90, other), (place, flags)]);
            assert_eq!(narrowed(&record).0, 10, "{other:X}, {flags:02X} at {place}");
        }
    }
}

/// Every count but 0, and no other.
#[test]
fn every_count() {
    for count in 0..=0xFFFF_u16 {
        let [low, high] = count.to_le_bytes();
        let number = narrowed(&new_with(&[(88, low), (89, high)])).0;
        assert_eq!(number, if count == 0 { 0 } else { 10 }, "{count}");
    }
}

#[test]
fn a_marked_flag_that_is_1_is_a_bad_record() {
    for (mark, place, flags) in BOTH_AT_ONCE {
        let record = new_with(&[(90, mark), (place, flags)]);
        assert_eq!(narrowed(&record).0, 2, "{mark:X}, {flags:02X} at {place}");
        let record = new_with(&[(90, 0x0F), (place, flags)]);
        assert_eq!(narrowed(&record).0, 2, "F, {flags:02X} at {place}");
        // Without the mark the flag does no harm, and the old form has no marks.
        let record = new_with(&[(place, flags)]);
        assert_eq!(narrowed(&record), (0, record[..88].to_vec()));
        assert_eq!(widened(&record[..88]), (0, record));
    }
}

/// Whatever is wrong besides, what the old form cannot hold comes last.
#[test]
fn number_2_before_10() {
    for unheld in UNHELD {
        let record = new_with(&[unheld]);
        let label = format!("{:02X} at {}", unheld.1, unheld.0);
        for room in [0, 1, 87, 89, 91, 92, 93, 176] {
            let number = moved(narrow, &record, room).0;
            assert_eq!(number, 2, "{label}, room for {room}");
        }
        for length in [88, 89, 90, 91] {
            assert_eq!(narrowed(&record[..length]).0, 2, "{label}, {length} bytes");
        }
        assert_eq!(narrowed(&[&record[..], &[0]].concat()).0, 2, "{label}");
        for bad in BAD.into_iter().chain(BAD_BEHIND) {
            let record = new_with(&[unheld, bad]);
            // Two changes of one byte are one.
            if bad.0 != unheld.0 {
                assert_eq!(narrowed(&record).0, 2, "{label}, {bad:?}");
                assert_eq!(moved(narrow, &record, 92).0, 2, "{label}, {bad:?}");
            }
        }
    }
    // A bit for no mark, beside one for a mark.
    assert_eq!(narrowed(&new_with(&[(90, 0x11)])).0, 2);
}

/// Only 88 bytes move to 92, and only 92 to 88.
#[test]
fn every_length() {
    for length in 0..=100 {
        let mut record = new();
        record.resize(length, 0);
        for room in 0..=100 {
            let label = format!("{length} bytes, room for {room}");
            let wider = if (length, room) == (88, 92) { 0 } else { 2 };
            assert_eq!(moved(widen, &record, room).0, wider, "{label}");
            let narrower = if (length, room) == (92, 88) { 0 } else { 2 };
            assert_eq!(moved(narrow, &record, room).0, narrower, "{label}");
        }
    }
}

/// Bytes that are a record but for one bit, now and then; or a whole record.
fn nearly(chance: &mut Chance) -> Vec<u8> {
    let mut record: Vec<u8> = (0..92).map(|_| chance.byte()).collect();
    record[90] &= chance.byte();
    if chance.below(2) == 0 {
        record[88..91].fill(0);
    }
    records::mend(&mut record);
    let place = chance.below(8 * 92) as usize;
    record[place / 8] ^= (chance.below(2) as u8) << (place % 8);
    record
}

/// Either way and back gives the same bytes, wherever it is not refused; and it
/// is refused as the list says.
#[test]
fn there_and_back() {
    let mut chance = Chance(9);
    let mut met = [[0; 11]; 2];
    for _ in 0..20_000 {
        let record = nearly(&mut chance);
        let (number, wide) = widened(&record[..88]);
        assert_eq!(number, records::widened(&record[..88], 92), "{record:02X?}");
        met[0][usize::from(number)] += 1;
        if number == 0 {
            assert_eq!(narrowed(&wide), (0, record[..88].to_vec()));
        }
        let (number, thin) = narrowed(&record);
        assert_eq!(number, records::narrowed(&record, 88), "{record:02X?}");
        met[1][usize::from(number)] += 1;
        if number == 0 {
            assert_eq!(widened(&thin), (0, record));
        }
    }
    for (way, number) in [(0, 0), (0, 2), (1, 0), (1, 2), (1, 10)] {
        assert!(met[way][number] > 100, "{met:?}");
    }
}

/// A record that was moved holds the state that it held: a move and a load is a
/// load.
#[test]
fn a_move_and_a_load() {
    let mut chance = Chance(10);
    let mut loaded = 0;
    for _ in 0..20_000 {
        let record = nearly(&mut chance);
        let old = &record[..88];
        match widened(old) {
            (0, wide) => {
                loaded += 1;
                let machine = Machine::from_old_record(old).unwrap();
                let marks = (machine.marks, machine.marks_prime);
                assert_eq!(marks, (Marks::default(), Marks::default()));
                assert_eq!(machine.nesting, 0);
                assert_eq!(Machine::from_record(&wide), Ok(machine));
            }
            _ => assert_eq!(Machine::from_old_record(old), Err(2)),
        }
        if let (0, thin) = narrowed(&record) {
            let machine = Machine::from_record(&record);
            assert_eq!(Machine::from_old_record(&thin), machine);
        }
    }
    assert!(loaded > 5_000);
}
