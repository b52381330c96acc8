//! The marks of K6: every listed operation with every set of marks before it,
//! and behind it what reads a flag. What the marks must be after an operation,
//! and whether a reader is refused, is not taken from either machine: both are
//! held to the list in `forms`. Each group has to have met what it is there
//! for.

mod met;
mod operation;

use super::runs::{self, skip, string};
use super::Bench;
use crate::judge::Answer;
use draw::aim::{self, XSP};
use draw::case::{Call, Case};
use forms::{marks, Form};
use met::{Met, Sort};
use operation::{operations, prepared, Prepared, LAYOUT, MIDDLE};
use second::record::{COUNTER, MARKS};

/// PUSH F and PUSH SR, and how many bytes they push.
const PUSHES: [([u8; 1], u32); 2] = [([0x18], 1), ([0x02], 2)];
const EXCHANGE: [u8; 1] = [0x16];

/// Where XSP puts what they push, and what a push there answers if no mark
/// refuses it: in RAM, behind RAM, in ROM.
const STACKS: [(u32, u8); 3] = [
    (MIDDLE, 0),
    (LAYOUT.ram as u32, 5),
    ((1 << 24) - LAYOUT.rom as u32 / 2, 6),
];

/// JR with each condition, a little forward, and JRL, a little back.
fn all_jumps() -> impl Iterator<Item = Vec<u8>> {
    let short = (0x60..=0x6F).map(|first| vec![first, 0x02]);
    let long = (0x70..=0x7F).map(|first| vec![first, 0xFE, 0xFF]);
    short.chain(long)
}

/// Those of them that read V.
fn signed_jumps() -> impl Iterator<Item = Vec<u8>> {
    all_jumps().filter(|code| marks::reads_v(code[0] & 0x0F))
}

/// Does something for every operation and every set of marks before it.
fn each_operation(bench: &mut Bench, mut work: impl FnMut(&mut Bench, &Form, u8)) {
    let operations = operations();
    for _ in 0..bench.rounds {
        for operation in &operations {
            for before in marks::ALL {
                work(bench, operation, before);
            }
            if bench.judge.weary() {
                return;
            }
        }
    }
}

/// Steps the instruction at the counter, which must be done and leave the marks
/// that the list says.
fn step(bench: &mut Bench, case: &mut Case, code: &[u8]) {
    let wanted = marks::after(code, case.record[MARKS]);
    let start = case.clone();
    let answer = bench.judge.hold_and_carry(case);
    let right = answer == Answer::number(0) && case.record[MARKS] == wanted;
    bench.judge.expect(right, || {
        let text = start.text();
        format!("{code:02X?} is not done, or leaves other marks than {wanted:X}: --case '{text}'")
    });
}

/// An operation that was done, with these marks before it.
fn done(bench: &mut Bench, operation: &Form, before: u8) -> Case {
    let Prepared { mut case, code } = prepared(&mut bench.chance, operation, before);
    step(bench, &mut case, &code);
    case
}

/// Puts code where the counter is.
fn put_next(case: &mut Case, code: &[u8]) {
    let counter = aim::get_long(&case.record, COUNTER);
    let place = counter.wrapping_sub(LAYOUT.rom_start());
    case.rom.put(place as usize, code);
}

/// Something that reads a flag comes next. It must be refused with 8 where the
/// list says so, and otherwise answer what it would without any mark.
fn read(bench: &mut Bench, case: &mut Case, code: &[u8], otherwise: Answer) -> Answer {
    put_next(case, code);
    let answer = bench.judge.hold(case);
    let wanted = match marks::refused(code, case.record[MARKS]) {
        true => Answer::number(8),
        false => otherwise,
    };
    bench.judge.expect(answer == wanted, || {
        format!("{answer:?}, to be {wanted:?}: --case '{}'", case.text())
    });
    answer
}

/// Every jump from a state; `was` is the marks that it had before.
fn read_by_jumps(bench: &mut Bench, case: &mut Case, was: u8, met: &mut Met) {
    for code in all_jumps() {
        let answer = read(bench, case, &code, Answer::number(0));
        met.note(&code, 0, was, case.record[MARKS], answer);
    }
}

/// PUSH F and PUSH SR from a state, with XSP in each place.
fn read_by_pushes(bench: &mut Bench, case: &mut Case, was: u8, met: &mut Met) {
    for (place, (first, number)) in STACKS.into_iter().enumerate() {
        for (code, size) in PUSHES {
            let highest = bench.chance.long() << 24;
            aim::set_long(&mut case.record, XSP, highest | (first + size));
            let at = if number == 0 { 0 } else { first };
            let answer = read(bench, case, &code, Answer::step((number, at)));
            met.note(&code, place, was, case.record[MARKS], answer);
        }
    }
}

/// Both pushes in each place.
fn all_pushes() -> impl Iterator<Item = (Vec<u8>, usize)> {
    let places = 0..STACKS.len();
    places.flat_map(|place| PUSHES.map(|(code, _)| (code.to_vec(), place)))
}

/// Every jump behind every operation: 8 where it reads a marked V, also where
/// it would not be taken; done where the operation has cleared the mark.
pub fn jumps(bench: &mut Bench) {
    let mut met = Met::default();
    each_operation(bench, |bench, operation, before| {
        let mut case = done(bench, operation, before);
        read_by_jumps(bench, &mut case, before, &mut met);
    });
    for code in signed_jumps() {
        met.expect(bench.judge, &code, 0, Sort::Refused(marks::V));
        met.expect(bench.judge, &code, 0, Sort::Refused(marks::BOTH));
        met.expect(bench.judge, &code, 0, Sort::Cleared);
    }
    for code in all_jumps() {
        met.expect(bench.judge, &code, 0, Sort::Unread(marks::H));
        if !marks::reads_v(code[0] & 0x0F) {
            met.expect(bench.judge, &code, 0, Sort::Unread(marks::V));
            met.expect(bench.judge, &code, 0, Sort::Unread(marks::BOTH));
        }
    }
}

/// PUSH F and PUSH SR behind every operation: 8 where it would be done, where it
/// would be 5 and where it would be 6; and each of these where the operation has
/// cleared the marks.
pub fn pushes(bench: &mut Bench) {
    let mut met = Met::default();
    each_operation(bench, |bench, operation, before| {
        let mut case = done(bench, operation, before);
        read_by_pushes(bench, &mut case, before, &mut met);
    });
    for (code, place) in all_pushes() {
        for of_f in [marks::H, marks::V, marks::BOTH] {
            met.expect(bench.judge, &code, place, Sort::Refused(of_f));
        }
        met.expect(bench.judge, &code, place, Sort::Cleared);
    }
}

/// EX F,F' behind every operation, and then every jump and every push of flags.
/// What is noted is what the exchange has changed: a mark came in, or went out.
pub fn exchanges(bench: &mut Bench) {
    let mut met = Met::default();
    each_operation(bench, |bench, operation, before| {
        let mut case = done(bench, operation, before);
        put_next(&mut case, &EXCHANGE);
        let was = case.record[MARKS];
        step(bench, &mut case, &EXCHANGE);
        read_by_jumps(bench, &mut case, was, &mut met);
        read_by_pushes(bench, &mut case, was, &mut met);
    });
    let jumps = signed_jumps().map(|code| (code, 0));
    for (code, place) in jumps.chain(all_pushes()) {
        met.expect(bench.judge, &code, place, Sort::CameIn);
        met.expect(bench.judge, &code, place, Sort::Cleared);
    }
}

/// Every operation and a reader in one run; and long strings of both.
pub fn runs(bench: &mut Bench) {
    let pushes = PUSHES.map(|(code, _)| code.to_vec());
    let readers: Vec<Vec<u8>> = all_jumps().chain(pushes).collect();
    each_operation(bench, |bench, operation, before| {
        let reader = bench.chance.below(readers.len() as u32) as usize;
        two_steps(bench, operation, before, &readers[reader]);
    });
    let mut met = Met::default();
    strung(bench, &mut met);
    for code in signed_jumps() {
        met.expect(bench.judge, &code, 0, Sort::Refused(marks::V));
        met.expect(bench.judge, &code, 0, Sort::Cleared);
    }
    for sort in [
        Sort::Refused(marks::H),
        Sort::Refused(marks::V),
        Sort::Cleared,
    ] {
        for (code, _) in PUSHES {
            met.expect(bench.judge, &code, 0, sort);
        }
    }
}

/// A run stops with 8 before the second step, or goes on.
fn two_steps(bench: &mut Bench, operation: &Form, before: u8, reader: &[u8]) {
    let Prepared { mut case, code } = prepared(&mut bench.chance, operation, before);
    if matches!(code[..], [0x82..=0x97, 0x10..=0x17]) {
        // A repeating form is at its last round.
        aim::set_word(&mut case.record, aim::BC, 1);
    }
    put_next(&mut case, &[&code[..], reader].concat());
    case.call = Call::Run(2);
    let answer = bench.judge.hold(&case);
    let stops = marks::refused(reader, marks::after(&code, before));
    // What the operation did to XSP may refuse a push for other reasons.
    let right = match stops {
        true => answer == Answer::counted((1, 8)),
        false => answer.count >= 1 && answer.number != 8,
    };
    bench.judge.expect(right, || {
        format!("{answer:?}, 8 is {stops}: --case '{}'", case.text())
    });
}

/// Operations and readers by turns in ROM. A refused instruction is skipped.
fn strung(bench: &mut Bench, met: &mut Met) {
    let operations = operations();
    let mut jumps: Vec<Vec<u8>> = all_jumps().collect();
    for code in &mut jumps {
        // Whether taken or not, the next instruction follows.
        code[1..].fill(0);
    }
    for _ in 0..60 * bench.rounds {
        let rom = string(&mut bench.chance, |chance| match chance.below(10) {
            0..=4 => {
                let one = chance.below(operations.len() as u32) as usize;
                aim::code(chance, &operations[one], runs::LAYOUT)
            }
            5..=7 => jumps[chance.below(32) as usize].clone(),
            8 => chance.pick(&PUSHES).0.to_vec(),
            _ => EXCHANGE.to_vec(),
        });
        let mut case = Case {
            call: Call::Step,
            record: aim::record(&mut bench.chance, runs::LAYOUT),
            ram: aim::noise(&mut bench.chance, runs::LAYOUT.ram),
            rom,
        };
        aim::put_long(&mut case.record, COUNTER, runs::LAYOUT.rom_start());
        for _ in 0..40 {
            leg(bench, &mut case, met);
            skip(bench, &mut case);
        }
        if bench.judge.weary() {
            return;
        }
    }
}

/// A run, and the same step by step, to see what it meets on the way.
fn leg(bench: &mut Bench, case: &mut Case, met: &mut Met) {
    let steps = 1 + bench.chance.below(40);
    case.call = Call::Run(steps);
    let start = case.clone();
    let ended = bench.judge.hold_and_carry(case);
    let mut stepped = start.clone();
    stepped.call = Call::Step;
    let (mut all, mut was) = (Answer::number(0), 0);
    while all.number == 0 && all.count < steps {
        let code = stepped.code().to_vec();
        let now = stepped.record[MARKS];
        let answer = bench.judge.hold_and_carry(&mut stepped);
        // A push of flags or a jump; and it is a run's only where steps came
        // before.
        if all.count > 0 && matches!(code.first(), Some(0x02 | 0x18 | 0x60..=0x7F)) {
            met.note(&code, 0, was, now, answer);
        }
        was |= now;
        let done = u32::from(answer.number == 0);
        all = Answer {
            count: all.count + done,
            ..answer
        };
    }
    let same = ended == all && case.record == stepped.record && case.ram == stepped.ram;
    bench.judge.expect(same, || {
        format!("a run is not its steps: --case '{}'", start.text())
    });
}
