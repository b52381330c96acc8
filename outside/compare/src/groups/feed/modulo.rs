//! MINC and MDEC: every word of a register with every number, and every word of code
//! as a number.

use super::{put_code, set_value, step_of, value, WORD};
use crate::groups::Bench;
use crate::judge::Answer;
use draw::aim::{self, Layout};
use draw::case::{Call, Case};
use draw::chance::Chance;
use draw::image::Image;
use forms::feed::{Step, STEPS};
use second::record::{BANK, COUNTER};

/// Each of the six with each of its numbers: every word, and by 01's registers those
/// at the ends of tables.
pub fn every_word(bench: &mut Bench) {
    for step in STEPS {
        for number in step.numbers() {
            packed(bench, step, number);
            for r in 0..8 {
                ends_of_tables(bench, step, number, r);
            }
            if bench.judge.weary() {
                return;
            }
        }
    }
}

/// Every word, in every word of the registers by its code, forty a run; or every
/// eighth run.
fn packed(bench: &mut Bench, step: Step, number: u16) {
    let [low, high] = step.coded(number);
    let codes = (0x00..0x40).chain(0xF0..=0xFF).step_by(2);
    let code: Vec<u8> = codes
        .flat_map(|code| [0xD7, code, step.second, low, high])
        .collect();
    let layout = Layout {
        ram: 0,
        rom: code.len(),
    };
    let steps = (COUNTER / 2) as u32;
    let mut case = Case {
        call: Call::Run(steps),
        record: aim::record(&mut bench.chance, layout),
        ram: Image::zeros(0),
        rom: Image::of(&code),
    };
    let every = if bench.sparse { 8 } else { 1 };
    for first in (0..0x1_0000).step_by(every * COUNTER / 2) {
        aim::draw_flags(&mut bench.chance, &mut case.record);
        aim::put_long(&mut case.record, COUNTER, layout.rom_start());
        // The run ends where ROM does.
        let mut wanted = case.record.clone();
        aim::put_long(&mut wanted, COUNTER, 0);
        for (value, place) in (first..).zip((0..COUNTER).step_by(2)) {
            let (value, place) = (value as u16, place..place + 2);
            set_value(&mut case.record, &place, value.into());
            set_value(&mut wanted, &place, step.after(value, number).into());
        }
        hold(bench, &case, Answer::run((steps, 0, 0)), &wanted);
    }
}

/// Holds both machines to an answer and to the record that is left.
fn hold(bench: &mut Bench, case: &Case, wanted: Answer, record: &[u8]) {
    let answer = bench.judge.hold(case);
    let right = answer == wanted && bench.judge.left().0 == record;
    bench.judge.expect(right, || {
        format!(
            "{answer:?}, or something else is left: --case '{}'",
            case.text()
        )
    });
}

/// Words around both ends of some tables, by 01's form.
fn ends_of_tables(bench: &mut Bench, step: Step, number: u16, r: u8) {
    let [low, high] = step.coded(number);
    let code = [WORD.plain + r, step.second, low, high];
    let last = 0_u16.wrapping_sub(number);
    let drawn = bench.chance.long() as u16 & last;
    for table in [0, number, drawn, last] {
        for more in 0..12 {
            let value = table.wrapping_add(more).wrapping_sub(6);
            for value in [value, value.wrapping_add(number / 2)] {
                one(bench, step, number, &code, value);
            }
        }
    }
}

/// A step of code by 01's form, with this in its register.
fn one(bench: &mut Bench, step: Step, number: u16, code: &[u8], value: u16) {
    let mut case = step_of(&mut bench.chance, code);
    let place = WORD.plain(code[0] & 7, case.record[BANK] & 3);
    set_value(&mut case.record, &place, value.into());
    let mut wanted = case.record.clone();
    set_value(&mut wanted, &place, step.after(value, number).into());
    let counter = aim::get_long(&case.record, COUNTER) + code.len() as u32;
    aim::put_long(&mut wanted, COUNTER, counter);
    hold(bench, &case, Answer::number(0), &wanted);
}

/// Each of the six with each word of code behind it, by 01's form or by K1's: an
/// instruction where the word is a number less the step, and 4 elsewhere.
pub fn every_number(bench: &mut Bench) {
    for step in STEPS {
        let mut listed = 0;
        for word in 0..=0xFFFF_u16 {
            let first = first_bytes(&mut bench.chance);
            let number = step.number(word.to_le_bytes());
            listed += usize::from(number.is_some());
            coded(bench, step, &first, word, number);
            if bench.judge.weary() {
                return;
            }
        }
        bench.judge.expect(listed == step.numbers().count(), || {
            format!("{listed} numbers of {:02X} were met", step.second)
        });
    }
}

/// D8+r, or D7 and a code that names a word.
fn first_bytes(chance: &mut Chance) -> Vec<u8> {
    if chance.once_in(2) {
        return vec![WORD.plain + chance.below(8) as u8];
    }
    let good: Vec<u8> = (0..=255)
        .filter(|&code| WORD.named(code, 0).is_some())
        .collect();
    vec![WORD.any, chance.pick(&good)]
}

/// A word of code, which stands for this number or for none.
fn coded(bench: &mut Bench, step: Step, first: &[u8], word: u16, number: Option<u16>) {
    let code = [first, &[step.second], &word.to_le_bytes()].concat();
    let mut case = step_of(&mut bench.chance, &code);
    let bank = case.record[BANK] & 3;
    let place = match first {
        &[_, code] => WORD.named(code, bank).expect("a word"),
        _ => WORD.plain(first[0] & 7, bank),
    };
    put_code(&mut case, &code);
    let mut wanted = case.record.clone();
    let Some(number) = number else {
        return hold(bench, &case, Answer::number(4), &wanted);
    };
    let moved = step.after(value(&case.record, &place) as u16, number);
    set_value(&mut wanted, &place, moved.into());
    let counter = aim::get_long(&case.record, COUNTER) + code.len() as u32;
    aim::put_long(&mut wanted, COUNTER, counter);
    hold(bench, &case, Answer::number(0), &wanted);
}
