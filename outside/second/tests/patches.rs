//! What K10 lets a patch rely on, and some laws beyond it: code that leaves what
//! other code leaves, or nothing at all. And where no such law holds.

mod common;

use common::{draw_flags, rom_start, step_from, step_once, Chance, XSP};
use forms::banks::{Size, SIZES};
use second::record::{BANK, COUNTER, F, F_PRIME, LENGTH, MARKS, NESTING, SR};
use second::{Machine, Marks};
use std::ops::Range;

type Record = [u8; LENGTH];

const SLA: u8 = 0xEC;
const SRA: u8 = 0xED;
const SLL: u8 = 0xEE;
const SRL: u8 = 0xEF;
const SHIFTS: [u8; 4] = [SLA, SRA, SLL, SRL];
const INC: u8 = 0x60;
const DEC: u8 = 0x68;
const NOP: u8 = 0x00;
const INCF: u8 = 0x0C;
const DECF: u8 = 0x0D;
const EX: u8 = 0x16;
/// PUSH and POP of register 0, by size.
const STACKED: [(u8, u8, Size); 2] = [(0x28, 0x48, SIZES[1]), (0x38, 0x58, SIZES[2])];

/// H and V in F.
const H: u8 = 0x10;
const V: u8 = 0x04;

/// What no law may change, so that a stray store would be seen.
const RAM: [u8; 8] = [0x1B, 0x2C, 0x3D, 0x4E, 0x5F, 0x60, 0x71, 0x82];
/// How long a stack is: so short that every XSP in it can be tried.
const STACK: usize = 0x40;

/// A register as code names it, while a bank is the current one.
struct Named {
    begin: Vec<u8>,
    size: Size,
    bank: u8,
    place: Range<usize>,
}

impl Named {
    /// A register form of it, so that both ways to name one are tried alike.
    fn code(&self, rest: &[u8]) -> Vec<u8> {
        [&self.begin, rest].concat()
    }
}

/// The registers of 01, in every bank.
fn plain_registers() -> Vec<Named> {
    let mut all = vec![];
    for bank in 0..4 {
        for size in SIZES {
            all.extend((0..8).map(|r| Named {
                begin: vec![size.plain + r],
                size,
                bank,
                place: size.plain(r, bank),
            }));
        }
    }
    assert_eq!(all.len(), 4 * 3 * 8);
    all
}

/// The registers of K1 by every code byte that names one, in every bank.
fn coded_registers() -> Vec<Named> {
    let mut all = vec![];
    for bank in 0..4 {
        for size in SIZES {
            let named = |code| Some((code, size.named(code, bank)?));
            all.extend((0..=255).filter_map(named).map(|(code, place)| Named {
                begin: vec![size.any, code],
                size,
                bank,
                place,
            }));
        }
    }
    assert_eq!(all.len(), 4 * (112 + 56 + 28));
    all
}

/// All of them, by both ways to name them.
fn registers() -> Vec<Named> {
    plain_registers()
        .into_iter()
        .chain(coded_registers())
        .collect()
}

/// Those whose INC and DEC keep all flags.
fn words_and_longs() -> Vec<Named> {
    let all = registers().into_iter();
    all.filter(|register| register.size.bytes > 1).collect()
}

/// Those whose INC and DEC set flags.
fn bytes() -> Vec<Named> {
    let all = registers().into_iter();
    all.filter(|register| register.size.bytes == 1).collect()
}

/// A valid record at counter 0, all else drawn, so that every change can show.
fn drawn(chance: &mut Chance, bank: u8) -> Record {
    let mut record = [0; LENGTH];
    record[..COUNTER].fill_with(|| chance.byte());
    draw_flags(chance, &mut record, bank);
    record[NESTING + 1] = chance.byte();
    record
}

/// Such a record with this value in a register.
fn holding(chance: &mut Chance, register: &Named, value: u32) -> Record {
    let mut record = drawn(chance, register.bank);
    put(&mut record, &register.place, value);
    record
}

/// Writes a register, and as much of the value as it has room for.
fn put(record: &mut Record, place: &Range<usize>, value: u32) {
    record[place.clone()].copy_from_slice(&value.to_le_bytes()[..place.len()]);
}

/// What a register holds, to work out what it should hold.
fn value_of(record: &Record, place: &Range<usize>) -> u32 {
    let mut four = [0; 4];
    four[..place.len()].copy_from_slice(&record[place.clone()]);
    u32::from_le_bytes(four)
}

/// Values where something turns, with drawn ones behind them.
fn values(chance: &mut Chance, size: Size) -> [u32; 8] {
    let top = 1 << (8 * size.bytes - 1);
    let [a, b, c] = [chance.next(), chance.next(), chance.next()];
    [0, 1, top, top - 1, u32::MAX, a, b, c]
}

/// Every a and b from 1 on with a sum that has a code.
fn pairs(most: u8) -> Vec<(u8, u8)> {
    let all = (1..most).flat_map(|a| (1..=most - a).map(move |b| (a, b)));
    all.collect()
}

/// What code leaves. It ends where ROM ends, so that the counter is 0 again.
fn left(record: &Record, code: &[&[u8]]) -> Record {
    let rom = code.concat();
    let mut machine = Machine::from_record(record).unwrap();
    machine.counter = rom_start(&rom) % 0x100_0000;
    let mut ram = RAM;
    for _ in code {
        let number = step_once(&mut machine, &mut ram, &rom);
        assert_eq!(number, 0, "{code:02X?}");
    }
    assert_eq!(machine.counter, 0, "{code:02X?}");
    assert_eq!(ram, RAM, "{code:02X?}");
    machine.to_record().unwrap()
}

/// The same of instructions that are a byte each.
fn left_by(record: &Record, code: &[u8]) -> Record {
    left(record, &code.chunks(1).collect::<Vec<_>>())
}

/// A shift by plain arithmetic, so that one which does nothing cannot pass.
fn shifted(shift: u8, size: Size, value: u32, places: u8) -> u32 {
    let unused = 32 - 8 * size.bytes;
    let signed = ((value << unused) as i32) >> unused;
    match shift {
        SRA => (signed >> places) as u32,
        SRL => value >> places,
        _ => value << places,
    }
}

/// Holds a shift to the law for every a and b, and says for how many.
fn shifts_merge(register: &Named, shift: u8, record: &Record) -> usize {
    let by = |places: u8| register.code(&[shift, places % 16]);
    let value = value_of(record, &register.place);
    let once: Vec<Record> = (1..=16)
        .map(|places| {
            let after = left(record, &[&by(places)]);
            let mut wanted = *record;
            let result = shifted(shift, register.size, value, places);
            put(&mut wanted, &register.place, result);
            let label = by(places);
            assert_eq!(after[..COUNTER], wanted[..COUNTER], "{label:02X?}");
            after
        })
        .collect();
    let pairs = pairs(16);
    for &(a, b) in &pairs {
        let apart = left(record, &[&by(a), &by(b)]);
        let together = once[usize::from(a + b) - 1];
        let label = (by(a), by(b), value);
        assert_eq!(apart, together, "{label:02X?}");
    }
    pairs.len()
}

/// K10's law in the registers of 01, with all the values where something turns.
#[test]
fn two_shifts_are_one_in_the_registers_of_01() {
    let mut chance = Chance(1);
    let mut tried = 0;
    for register in plain_registers() {
        for shift in SHIFTS {
            for value in values(&mut chance, register.size) {
                let record = holding(&mut chance, &register, value);
                tried += shifts_merge(&register, shift, &record);
            }
        }
    }
    assert_eq!(tried, 96 * 4 * 8 * 120);
}

/// The same by code bytes: over the banks each one meets every turning value.
#[test]
fn two_shifts_are_one_by_every_code_byte() {
    let mut chance = Chance(2);
    let mut tried = 0;
    for (turn, register) in coded_registers().into_iter().enumerate() {
        for (more, shift) in SHIFTS.into_iter().enumerate() {
            let values = values(&mut chance, register.size);
            let turning = |on: usize| values[(turn + more + on) % 5];
            for value in [turning(0), turning(2), values[5]] {
                let record = holding(&mut chance, &register, value);
                tried += shifts_merge(&register, shift, &record);
            }
        }
    }
    assert_eq!(tried, 784 * 4 * 3 * 120);
}

/// The same for every byte, and as many words and longs, since few values tell C and V.
#[test]
fn two_shifts_are_one_for_many_values() {
    let mut chance = Chance(3);
    let registers = plain_registers();
    let mut tried = 0;
    for size in SIZES {
        let of_size = |register: &&Named| register.size == size;
        let of_size: Vec<&Named> = registers.iter().filter(of_size).collect();
        for low in 0..256 {
            let register = of_size[low % of_size.len()];
            let value = chance.next() << 8 | low as u32;
            for shift in SHIFTS {
                let record = holding(&mut chance, register, value);
                tried += shifts_merge(register, shift, &record);
            }
        }
    }
    assert_eq!(tried, 3 * 256 * 4 * 120);
}

/// A merged shift cannot tell what went before it: no flag or mark of then is kept.
#[test]
fn a_shift_reads_no_flag() {
    let mut chance = Chance(21);
    let sets = flag_sets();
    let mut tried = 0;
    for register in registers() {
        for (shift, places) in SHIFTS.iter().flat_map(|&s| (0..16).map(move |p| (s, p))) {
            let value = values(&mut chance, register.size)[tried % 8];
            let record = holding(&mut chance, &register, value);
            let mut other = record;
            let (f, marks) = sets[tried % sets.len()];
            (other[F], other[MARKS]) = (f, record[MARKS] & 0x0C | marks);
            let code = register.code(&[shift, places]);
            assert_eq!(
                left(&record, &[&code]),
                left(&other, &[&code]),
                "{code:02X?}"
            );
            tried += 1;
        }
    }
    assert_eq!(tried, 880 * 4 * 16);
}

/// Either may stand for the other in a patch.
#[test]
fn sla_and_sll_leave_the_same() {
    let mut chance = Chance(4);
    let mut tried = 0;
    for register in registers() {
        for value in values(&mut chance, register.size) {
            let record = holding(&mut chance, &register, value);
            for places in 0..16 {
                let [sla, sll] = [SLA, SLL].map(|shift| register.code(&[shift, places]));
                let (one, other) = (left(&record, &[&sla]), left(&record, &[&sll]));
                assert_eq!(one, other, "{sla:02X?} {value:X}");
                tried += 1;
            }
        }
    }
    assert_eq!(tried, 880 * 8 * 16);
}

/// SRA and SRL are not such a pair: they part just where the top bit is 1.
#[test]
fn sra_and_srl_leave_the_same_without_the_top_bit_alone() {
    let mut chance = Chance(5);
    let (mut same, mut parted) = (0, 0);
    for register in registers() {
        let top = 1 << (8 * register.size.bytes - 1);
        for value in [0, 1, top - 1, top, top + 1, u32::MAX] {
            let record = holding(&mut chance, &register, value);
            let [sra, srl] = [SRA, SRL].map(|shift| register.code(&[shift, 1]));
            let (one, other) = (left(&record, &[&sra]), left(&record, &[&srl]));
            assert_eq!(one == other, value & top == 0, "{sra:02X?} {value:X}");
            if one == other {
                same += 1;
            } else {
                parted += 1;
            }
        }
    }
    assert_eq!((same, parted), (880 * 3, 880 * 3));
}

/// K10's law of the banks, for every small n and some great ones, in both orders.
#[test]
fn so_many_incf_and_decf_restore_the_bank() {
    let mut chance = Chance(6);
    let mut tried = 0;
    for bank in 0..4 {
        for n in (0..=40).chain([1000, 1001, 1002, 1003, 10_000]) {
            let record = drawn(&mut chance, bank);
            for (there, back, by) in [(INCF, DECF, n % 4), (DECF, INCF, 4 - n % 4)] {
                let (there, back) = (vec![there; n], vec![back; n]);
                let mut moved = record;
                moved[BANK] = record[BANK] - bank + (bank + by as u8) % 4;
                assert_eq!(left_by(&record, &there), moved, "{n} in bank {bank}");
                let both = [there, back].concat();
                assert_eq!(left_by(&record, &both), record, "{n} in bank {bank}");
                tried += 1;
            }
        }
    }
    assert_eq!(tried, 4 * 46 * 2);
}

/// Other numbers restore it just where they are the same modulo 4.
#[test]
fn other_numbers_of_incf_and_decf_do_not_restore_the_bank() {
    let mut chance = Chance(7);
    let mut restored = 0;
    for bank in 0..4 {
        for (n, m) in (0..8).flat_map(|n| (0..8).map(move |m| (n, m))) {
            let record = drawn(&mut chance, bank);
            let code = [vec![INCF; n], vec![DECF; m]].concat();
            let as_before = left_by(&record, &code) == record;
            assert_eq!(as_before, n % 4 == m % 4, "{n} and {m} in bank {bank}");
            restored += usize::from(as_before);
        }
    }
    assert_eq!(restored, 4 * 16);
}

/// Every F with every set of marks beside it that can be.
fn flag_sets() -> Vec<(u8, u8)> {
    let all = (0..=255).flat_map(|f| (0..4).map(move |marks| (f, marks)));
    let valid = |&(f, marks): &(u8, u8)| f & (0x28 | Marks::from_bits(marks).flags()) == 0;
    let all: Vec<(u8, u8)> = all.filter(valid).collect();
    // S, Z, N and C are 0 or 1; H and V are 0, 1 or marked.
    assert_eq!(all.len(), 16 * 9);
    all
}

/// K10's law of EX, for every F with every F', and marks; once is the two exchanged.
#[test]
fn two_exchanges_restore_both_flag_sets() {
    let mut chance = Chance(8);
    let mut tried = 0;
    for (f, marks) in flag_sets() {
        for (f_prime, marks_prime) in flag_sets() {
            let mut record = drawn(&mut chance, (tried % 4) as u8);
            (record[F], record[F_PRIME]) = (f, f_prime);
            record[MARKS] = marks + 4 * marks_prime;
            let mut exchanged = record;
            (exchanged[F], exchanged[F_PRIME]) = (f_prime, f);
            exchanged[MARKS] = marks_prime + 4 * marks;
            let label = format!("{f:02X} {marks}, {f_prime:02X} {marks_prime}");
            assert_eq!(left_by(&record, &[EX]), exchanged, "{label}");
            assert_eq!(left_by(&record, &[EX, EX]), record, "{label}");
            tried += 1;
        }
    }
    assert_eq!(tried, 144 * 144);
}

/// What is patched out with NOP is gone, and nothing else.
#[test]
fn nop_leaves_all_as_it_was() {
    let mut chance = Chance(9);
    let mut tried = 0;
    for bank in 0..4 {
        for many in (0..500).map(|turn| 1 + turn % 7) {
            let record = drawn(&mut chance, bank);
            assert_eq!(left_by(&record, &vec![NOP; many]), record, "{many}");
            tried += 1;
        }
    }
    assert_eq!(tried, 2_000);
}

/// INC or DEC by 1 to 8: the register so much on and no flag changed, by 01's rows.
fn counted(register: &Named, count: u8, record: &Record) -> Vec<Record> {
    let value = value_of(record, &register.place);
    let each = (1..=8u8).map(|n| {
        let after = left(record, &[&register.code(&[count + n % 8])]);
        let on = match count {
            INC => value.wrapping_add(n.into()),
            _ => value.wrapping_sub(n.into()),
        };
        let mut wanted = *record;
        put(&mut wanted, &register.place, on);
        assert_eq!(after, wanted, "{count:02X} by {n} of {value:X}");
        after
    });
    each.collect()
}

/// Goes through all that keeps flags while it counts, and says how many there were.
fn each_count(seed: u64, mut work: impl FnMut(&Named, u8, &Record)) -> usize {
    let mut chance = Chance(seed);
    let mut met = 0;
    for register in words_and_longs() {
        for value in values(&mut chance, register.size) {
            let record = holding(&mut chance, &register, value);
            for count in [INC, DEC] {
                work(&register, count, &record);
                met += 1;
            }
        }
    }
    met
}

/// Two counts of a word or a long merge as shifts do.
#[test]
fn two_counts_of_words_and_longs_are_one() {
    let mut tried = 0;
    let met = each_count(10, |register, count, record| {
        let once = counted(register, count, record);
        for (a, b) in pairs(8) {
            let [first, second] = [a, b].map(|n| register.code(&[count + n % 8]));
            let apart = left(record, &[&first, &second]);
            let together = once[usize::from(a + b) - 1];
            assert_eq!(apart, together, "{first:02X?} {second:02X?}");
            tried += 1;
        }
    });
    assert_eq!((met, tried), (400 * 8 * 2, 400 * 8 * 2 * 28));
}

/// A row of counts by one is one count.
#[test]
fn so_many_counts_by_one_are_one_count() {
    let mut tried = 0;
    let met = each_count(11, |register, count, record| {
        let one = register.code(&[count + 1]);
        for (n, once) in (1..).zip(counted(register, count, record)) {
            let row = vec![&one[..]; n];
            assert_eq!(left(record, &row), once, "{one:02X?} {n} times");
            tried += 1;
        }
    });
    assert_eq!((met, tried), (400 * 8 * 2, 400 * 8 * 2 * 8));
}

/// INC undoes DEC, and DEC undoes INC.
#[test]
fn a_count_of_words_and_longs_is_undone() {
    let mut tried = 0;
    let met = each_count(12, |register, count, record| {
        let back = if count == INC { DEC } else { INC };
        for n in 1..=8 {
            let [there, back] = [count, back].map(|code| register.code(&[code + n % 8]));
            let both = left(record, &[&there, &back]);
            assert_eq!(both, *record, "{there:02X?} {back:02X?}");
            tried += 1;
        }
    });
    assert_eq!((met, tried), (400 * 8 * 2, 400 * 8 * 2 * 8));
}

/// The flags in which two counts of a byte differ from one: H and V may, no other.
fn parted_flags(register: &Named, count: u8, record: &Record, a: u8, b: u8) -> u8 {
    let by = |n: u8| register.code(&[count + n % 8]);
    let apart = left(record, &[&by(a), &by(b)]);
    let together = left(record, &[&by(a + b)]);
    let parted = apart[F] ^ together[F];
    let mut mended = together;
    mended[F] ^= parted & (H | V);
    assert_eq!(apart, mended, "{:02X?} by {a} and {b}", by(a));
    let value = value_of(record, &register.place);
    let changed = value_of(&together, &register.place);
    assert_ne!(changed, value, "{:02X?}", by(a + b));
    parted
}

/// Bytes do not merge: the second count hides a carry or an overflow of the first.
#[test]
fn two_counts_of_a_byte_differ_in_h_and_v_alone() {
    let mut chance = Chance(13);
    let registers = bytes();
    assert_eq!(registers.len(), 480);
    let mut turn = 0;
    for count in [INC, DEC] {
        for (a, b) in pairs(8) {
            let (mut h, mut v) = (0, 0);
            for value in 0..256 {
                let register = &registers[turn % registers.len()];
                let record = holding(&mut chance, register, value);
                let parted = parted_flags(register, count, &record, a, b);
                h += u32::from(parted & H != 0);
                v += u32::from(parted & V != 0);
                turn += 1;
            }
            // The first carries from a of 16 low digits, and overflows from a of 256 values.
            let wanted = (16 * u32::from(a), u32::from(a));
            assert_eq!((h, v), wanted, "{count:02X} by {a} and {b}");
        }
    }
    assert_eq!(turn, 2 * 28 * 256);
}

/// The nearest examples, in every byte register, for whoever merges them by mistake.
#[test]
fn where_two_counts_of_a_byte_differ() {
    let mut chance = Chance(14);
    let mut tried = 0;
    for register in bytes() {
        for (count, value, wanted) in [
            (INC, 0x0E, 0),
            (INC, 0x0F, H),
            (INC, 0x10, 0),
            (INC, 0x7E, 0),
            (INC, 0x7F, H | V),
            (INC, 0x80, 0),
            (INC, 0xFF, H),
            (DEC, 0x11, 0),
            (DEC, 0x10, H),
            (DEC, 0x0F, 0),
            (DEC, 0x81, 0),
            (DEC, 0x80, H | V),
            (DEC, 0x7F, 0),
            (DEC, 0x00, H),
        ] {
            let record = holding(&mut chance, &register, value);
            let parted = parted_flags(&register, count, &record, 1, 1);
            assert_eq!(parted, wanted, "{count:02X} of {value:02X}");
            tried += 1;
        }
    }
    assert_eq!(tried, 480 * 14);
}

/// A load back can be left out of a patch, whichever way the first one went.
#[test]
fn a_load_back_changes_nothing() {
    let mut chance = Chance(15);
    let (mut tried, mut changed) = (0, 0);
    for register in registers() {
        for code in 0..8 {
            let record = drawn(&mut chance, register.bank);
            let beside = &register.size.plain(code, register.bank);
            let named = &register.place;
            let [load, load_beside] = [0x98, 0x88].map(|ld| register.code(&[ld + code]));
            let ways = [
                (&load, &load_beside, beside, named),
                (&load_beside, &load, named, beside),
            ];
            for (there, back, from, to) in ways {
                let mut wanted = record;
                wanted.copy_within(from.clone(), to.start);
                let once = left(&record, &[there]);
                assert_eq!(once, wanted, "{there:02X?}");
                let twice = left(&record, &[there, back]);
                assert_eq!(twice, once, "{there:02X?} {back:02X?}");
                tried += 1;
                changed += usize::from(once != record);
            }
        }
    }
    assert_eq!(tried, 880 * 8 * 2);
    assert!(changed > 13_000, "only {changed} loads changed anything");
}

/// A record with this XSP.
fn with_pointer(chance: &mut Chance, bank: u8, pointer: u32) -> Record {
    let mut record = drawn(chance, bank);
    put(&mut record, &SIZES[2].plain(XSP, bank), pointer);
    record
}

/// A machine at code in ROM or behind the stack in RAM, with both memories.
fn at_code(
    chance: &mut Chance,
    record: &Record,
    code: &[u8],
    in_ram: bool,
) -> (Machine, Vec<u8>, Vec<u8>) {
    let mut machine = Machine::from_record(record).unwrap();
    let mut ram: Vec<u8> = (0..STACK).map(|_| chance.byte()).collect();
    if in_ram {
        machine.counter = STACK as u32;
        ram.extend(code);
        return (machine, ram, vec![]);
    }
    machine.counter = rom_start(code);
    (machine, ram, code.to_vec())
}

/// The record without its counter, and RAM: what is compared where there is a stack.
type Seen = (Record, Vec<u8>);

/// What is there before two steps, between them and after, since a PUSH must show.
fn seen(chance: &mut Chance, record: &Record, code: [u8; 2], in_ram: bool) -> [Seen; 3] {
    let (mut machine, mut ram, rom) = at_code(chance, record, &code, in_ram);
    let start = machine.counter;
    let seen = |machine: &Machine, ram: &[u8], done: u32| {
        assert_eq!(machine.counter, (start + done) % 0x100_0000);
        let mut record = machine.to_record().unwrap();
        record[COUNTER..SR].fill(0);
        (record, ram.to_vec())
    };
    let before = seen(&machine, &ram, 0);
    assert_eq!(step_once(&mut machine, &mut ram, &rom), 0, "{code:02X?}");
    let between = seen(&machine, &ram, 1);
    assert_eq!(step_once(&mut machine, &mut ram, &rom), 0, "{code:02X?}");
    [before, between, seen(&machine, &ram, 2)]
}

/// Holds one PUSH to what 01 says of it, and PUSH and POP to the law.
fn undone(chance: &mut Chance, bank: u8, r: u8, pointer: u32, stacked: (u8, u8, Size)) -> usize {
    let (push, pop, size) = stacked;
    let end = pointer as usize & 0xFF_FFFF;
    let places = [false, true].map(|in_ram| {
        let record = with_pointer(chance, bank, pointer);
        let code = [push + r, pop + r];
        let [before, between, after] = seen(chance, &record, code, in_ram);
        let (mut pushed, mut ram) = before.clone();
        let xsp = SIZES[2].plain(XSP, bank);
        put(&mut pushed, &xsp, pointer - size.bytes as u32);
        ram[end - size.bytes..end].copy_from_slice(&record[size.plain(r, bank)]);
        let label = format!("{code:02X?}, XSP {pointer:08X}, bank {bank}");
        assert_eq!(between, (pushed, ram.clone()), "{label}");
        assert_eq!(after, (before.0, ram), "{label}");
    });
    places.len()
}

/// PUSH and POP can be taken out together, from the lowest XSP that fits upwards.
#[test]
fn a_push_is_undone_by_its_pop() {
    let mut chance = Chance(16);
    let mut tried = 0;
    for stacked in STACKED {
        for pointer in stacked.2.bytes..=STACK {
            for (bank, r) in (0..4).flat_map(|bank| (0..7).map(move |r| (bank, r))) {
                // Addresses are taken modulo 2^24.
                for above in [0x0000_0000, 0x0100_0000, 0xFF00_0000] {
                    let pointer = above + pointer as u32;
                    tried += undone(&mut chance, bank, r, pointer, stacked);
                }
            }
        }
    }
    assert_eq!(tried, (63 + 61) * 4 * 7 * 3 * 2);
}

/// Below that place there is no law, since the PUSH is refused.
#[test]
fn a_push_below_the_lowest_place_is_refused() {
    let mut chance = Chance(17);
    let mut tried = 0;
    for (push, _, size) in STACKED {
        for (bank, r) in (0..4).flat_map(|bank| (0..7).map(move |r| (bank, r))) {
            for pointer in 0..=size.bytes as u32 {
                let record = with_pointer(&mut chance, bank, pointer);
                let (mut machine, mut ram, rom) = at_code(&mut chance, &record, &[push + r], true);
                let number = step_once(&mut machine, &mut ram, &rom);
                let fits = pointer == size.bytes as u32;
                assert_eq!(number, if fits { 0 } else { 5 }, "XSP {pointer}");
                tried += 1;
            }
        }
    }
    assert_eq!(tried, 4 * 7 * (3 + 5));
}

/// Beyond 16 places nothing merges: 17 has no code, and 1 does not stand for it.
#[test]
fn sixteen_places_and_one_more_have_no_code() {
    let mut chance = Chance(18);
    let mut tried = 0;
    for register in registers() {
        let record = holding(&mut chance, &register, 0x8000_0001);
        for shift in SHIFTS {
            for places in [0x10, 0x11, 0x80, 0xFF] {
                let code = register.code(&[shift, places]);
                assert_eq!(step_from(record, &code), (4, record), "{code:02X?}");
            }
            let by = |places: u8| register.code(&[shift, places]);
            let seventeen = left(&record, &[&by(0), &by(1)]);
            // In a long there is still something left, and none of the codes stands for it.
            let others = if register.size.bytes == 4 {
                0..16
            } else {
                1..2
            };
            for places in others {
                let other = left(&record, &[&by(places)]);
                assert_ne!(other, seventeen, "{:02X?}", by(places));
                tried += 1;
            }
        }
    }
    assert_eq!(tried, 4 * (4 * (8 + 28) * 16 + 4 * (8 + 112 + 8 + 56)));
}

/// A shift back does not undo a shift: what went out at the end is lost.
#[test]
fn sla_and_then_sra_is_not_nothing() {
    let mut chance = Chance(19);
    let mut restored = 0;
    for register in bytes() {
        let [sla, sra] = [SLA, SRA].map(|shift| register.code(&[shift, 1]));
        for value in 0..256u32 {
            let mut record = holding(&mut chance, &register, value);
            record[F] |= 0x02;
            let after = left(&record, &[&sla, &sra]);
            // N was 1, and shifts make it 0, so even the same byte is not all.
            assert_ne!(after, record, "{value:02X}");
            let same = value_of(&after, &register.place) == value;
            assert_eq!(same, value >> 6 == 0 || value >> 6 == 3, "{value:02X}");
            restored += usize::from(same);
        }
    }
    assert_eq!(restored, 480 * 128);
}

/// A POP of another register is a load and no undoing.
#[test]
fn a_pop_of_another_register_is_not_the_undoing() {
    let mut chance = Chance(20);
    let mut tried = 0;
    for (push, pop, size) in STACKED {
        for (bank, r) in (0..4).flat_map(|bank| (0..7).map(move |r| (bank, r))) {
            for other in (0..7).filter(|&other| other != r) {
                let record = with_pointer(&mut chance, bank, STACK as u32);
                let code = [push + r, pop + other];
                let [before, _, after] = seen(&mut chance, &record, code, tried % 2 == 0);
                assert_ne!(after.0, before.0, "{code:02X?}");
                let (from, to) = (size.plain(r, bank), size.plain(other, bank));
                let mut loaded = before.0;
                loaded.copy_within(from, to.start);
                assert_eq!(after.0, loaded, "{code:02X?}");
                tried += 1;
            }
        }
    }
    assert_eq!(tried, 2 * 4 * 7 * 6);
}
