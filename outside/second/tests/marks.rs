//! The marks of K6: what sets, clears, keeps and reads them, over every listed
//! code, K8's and K1's too.

mod common;

use common::{at, memory, push_of_flags, rom_start, step_at, Chance, BC, XSP};
use forms::{marks, Form, Slot};
use second::record::MARKS;
use second::{reset, run, Machine, Marks, Width};

/// How long both memories are. What is pointed at is in the middle of RAM, so
/// that any displacement finds memory.
const LENGTH: usize = 0x140;
const MIDDLE: u32 = 0xA0;

/// A state with these marks whose pointers are all in RAM and whose other
/// flags are drawn.
fn marked(chance: &mut Chance, bits: u8) -> Machine {
    let mut machine = at(0, &[]);
    for code in 0..8 {
        machine.set(Width::Long, code, chance.next() << 24 | MIDDLE);
    }
    machine.marks = Marks::from_bits(bits);
    machine.marks_prime = Marks::from_bits(bits >> 2);
    machine.f = chance.byte() & 0xD7 & !machine.marks.flags();
    machine.f_prime = chance.byte() & 0xD7 & !machine.marks_prime.flags();
    machine
}

/// Code of a form, its addresses in RAM.
fn code(chance: &mut Chance, form: &Form) -> Vec<u8> {
    let mut address = [MIDDLE as u8, 0, 0].into_iter();
    let slots = form.slots.iter().map(|slot| match slot {
        Slot::One(bytes) => bytes[chance.below(bytes.len() as u32) as usize],
        Slot::Address => address.next().unwrap(),
        Slot::Constant | Slot::Displacement => chance.byte(),
    });
    slots.collect()
}

/// The marks as a record has them.
fn marks_of(machine: &Machine) -> u8 {
    machine.to_record().unwrap()[MARKS]
}

/// One step of a form with these marks: whether it is done. It is held to the
/// list of what each code does to the marks.
fn goes_on(chance: &mut Chance, kind: &Form, before: u8) -> bool {
    let mut machine = marked(chance, before);
    let code = code(chance, kind);
    // Copies and compares: the last round, or one more.
    if matches!(code[..], [0x82..=0x97, 0x10..=0x17]) {
        machine.set(Width::Word, BC, 1 + chance.below(2));
    }
    let (mut ram, rom) = (memory(LENGTH, &[]), memory(LENGTH, &code));
    machine.counter = rom_start(&rom);
    let label = format!("{code:02X?}, marks {before:X}");
    let ended = step_at(&mut machine, &mut ram, &rom);
    if marks::refused(&code, before) {
        assert_eq!(ended, (8, 0), "{label}");
        return false;
    }
    assert_eq!(ended, (0, 0), "{label}");
    assert_eq!(marks_of(&machine), marks::after(&code, before), "{label}");
    true
}

/// Every listed code with every set of marks, some times over.
#[test]
fn every_listed_code() {
    let mut chance = Chance(6);
    let kinds: Vec<Form> = forms::listed().iter().flat_map(Form::kinds).collect();
    let mut refused = 0;
    for kind in &kinds {
        for before in marks::ALL {
            let stops = |_: &usize| !goes_on(&mut chance, kind, before);
            refused += (0..6).filter(stops).count();
        }
    }
    // PUSH F and PUSH SR with a mark of F, and twelve jumps with V's.
    assert_eq!(refused, 6 * (2 * 12 + 12 * 8));
    let setting = |mark: u8| {
        let sets = |kind: &&Form| marks::after(&code(&mut Chance(1), kind), 0) == mark;
        kinds.iter().filter(sets).count()
    };
    // Fourteen forms have operands that are registers, constants or memory: five
    // operations of sums, three of logic. A shift is of 01's registers or of any,
    // and has low counts and high ones.
    assert_eq!(setting(marks::H), 5 * 14 + 2);
    assert_eq!(setting(marks::V), 3 * 14 + 4 * 2 * 2);
    assert_eq!(setting(marks::BOTH), 0);
}

/// A jump with this F and these marks: refused, or done as without a mark.
fn jumps(cc: u8, code: &[u8], f: u8, bits: u8) {
    let mut machine = at(0, &[]);
    machine.f = f;
    let mut known = machine.clone();
    machine.marks = Marks::from_bits(bits);
    let mut ram = memory(4, code);
    let ended = step_at(&mut machine, &mut ram, &[]);
    assert_eq!(step_at(&mut known, &mut ram, &[]), (0, 0));
    if bits & 2 != 0 && [1, 2, 4, 9, 10, 12].contains(&cc) {
        assert_eq!(ended, (8, 0), "{code:02X?}, F {f:02X}");
    } else {
        assert_eq!(ended, (0, 0), "{code:02X?}, F {f:02X}");
        assert_eq!(machine.counter, known.counter);
    }
}

/// All flags that may be marked as 0, with every condition and every mark.
#[test]
fn every_condition() {
    for cc in 0..16 {
        for f in (0..=255u8).filter(|f| f & 0x3C == 0) {
            for bits in 0..4 {
                jumps(cc, &[0x60 + cc, 0x10], f, bits);
                jumps(cc, &[0x70 + cc, 0x10, 0x00], f, bits);
            }
        }
    }
}

/// 8 before the stack's 5 and 6, and XSP stays as it was.
#[test]
fn a_push_of_marked_flags() {
    push_of_flags(
        0x18,
        &[
            (0x0000_0010, (0, 0)),
            (0x0000_0021, (5, 0x00_0020)),
            (0x5580_0000, (5, 0x7F_FFFF)),
            (0x0000_0000, (6, 0xFF_FFFF)),
            (0x00FF_FFF9, (6, 0xFF_FFF8)),
        ],
    );
}

/// A run does the steps before the one that is refused. Asked again it says the
/// same, and so does a step.
#[test]
fn a_run_stops_at_a_marked_flag() {
    // SLA 1,XWA; NOP; JR GT,..
    let code = [0xE8, 0xEC, 0x01, 0x00, 0x6A, 0x10];
    let mut ram = memory(LENGTH, &code);
    let mut machine = at(0, &[(XSP, 0x100)]);
    assert_eq!(run(&mut machine, &mut ram, &[], 100), (2, 8, 0));
    assert_eq!((machine.counter, marks_of(&machine)), (4, 2));
    assert_eq!(run(&mut machine, &mut ram, &[], 100), (0, 8, 0));
    assert_eq!(step_at(&mut machine, &mut ram, &[]), (8, 0));
    assert_eq!(run(&mut machine, &mut ram, &[], 0), (0, 0, 0));
    assert_eq!(run(&mut at(0, &[]), &mut ram, &[], 2), (2, 0, 0));
}

#[test]
fn reset_clears_all_marks() {
    let (machine, number) = reset(&[], &[0; 256]);
    assert_eq!((number, marks_of(&machine)), (0, 0));
    assert_eq!(Machine::zero().marks, Marks::default());
    assert_eq!(Machine::zero().marks_prime, Marks::default());
}
