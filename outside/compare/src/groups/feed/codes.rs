//! Every operand code of K7: every r and every code behind C7, D7 and E7, with every
//! second byte, in every bank; what is refused, and what is cut off.

use super::{hold, put_code, set_value, value, Work, LAYOUT};
use crate::groups::banks::{coded_number, cut_there};
use crate::groups::Bench;
use crate::judge::Answer;
use draw::aim;
use draw::case::{Call, Case};
use draw::chance::Chance;
use forms::banks::{place_written, Size, SIZES};
use forms::feed::{self, STEPS};
use forms::Form;
use second::record::{BANK, COUNTER};
use std::ops::Range;

/// A size, and what names r: the first byte, or two.
type Named = (Size, Vec<u8>);

/// Every r, and every code behind C7, D7 and E7.
fn every_named() -> Vec<Named> {
    let of_size = |size: Size| {
        let plain = (0..8).map(move |r| (size, vec![size.plain + r]));
        let any = (0..=255).map(move |code| (size, vec![size.any, code]));
        plain.chain(any)
    };
    SIZES.into_iter().flat_map(of_size).collect()
}

/// The bytes of r, if there is one.
fn place_of_r((size, first): &Named, bank: u8) -> Option<Range<usize>> {
    match first[..] {
        [_, code] => size.named(code, bank),
        _ => Some(size.plain(first[0] & 7, bank)),
    }
}

/// Code with a second byte. MINC and MDEC have a number behind it, the others
/// anything: as many bytes as a constant has at most.
fn code(chance: &mut Chance, (_, first): &Named, second: u8) -> Vec<u8> {
    let [mut a, mut b, c, d] = chance.long().to_le_bytes();
    if let Some(step) = feed::step(second) {
        [a, b] = coded_number(chance, step);
    }
    [&first[..], &[second, a, b, c, d]].concat()
}

/// All of them in every bank, from records of noise: taken or refused as the list
/// says, and what they must leave.
pub fn every_operand(bench: &mut Bench) {
    // In each bank, bytes: 8 and 112 registers, half of them lower halves; words: 8
    // and 56, of which all 8 and 28 are; six modulo steps.
    const DONE: u32 = 4 * (120 * 16 + 60 * 4 + 64 * 38 + 36 * 4);
    let forms = forms::listed();
    let mut done = 0;
    for _ in 0..bench.rounds {
        for named in every_named() {
            for second in feed::second_bytes() {
                for bank in 0..4 {
                    let bytes = code(&mut bench.chance, &named, second);
                    done += u32::from(one(bench, &forms, &named, &bytes, bank));
                }
            }
            if bench.judge.weary() {
                return;
            }
        }
    }
    bench.judge.expect(done == DONE * bench.rounds, || {
        format!("{done} steps were done, to be {DONE} a round")
    });
}

/// A step of code: whether it is done.
fn one(bench: &mut Bench, forms: &[Form], named: &Named, bytes: &[u8], bank: u8) -> bool {
    let (number, length) = forms::judged(forms, bytes);
    let mut case = Case {
        call: Call::Step,
        record: aim::record(&mut bench.chance, LAYOUT),
        ram: aim::noise(&mut bench.chance, LAYOUT.ram),
        rom: aim::noise(&mut bench.chance, LAYOUT.rom),
    };
    bench.chance.fill(&mut case.record[..COUNTER]);
    case.record[BANK] = case.record[BANK] & 0xFC | bank;
    put_code(&mut case, bytes);
    match number {
        0 => done(bench, &case, named, &bytes[..length]),
        _ => refused(bench, &case, bytes, number),
    }
    number == 0
}

/// A refused step changes nothing.
fn refused(bench: &mut Bench, case: &Case, bytes: &[u8], number: u8) {
    let answer = bench.judge.hold(case);
    let (record, ram) = bench.judge.left();
    let same = record == case.record && ram == case.ram.bytes;
    let right = same && answer == Answer::number(number);
    bench.judge.expect(right, || {
        format!("{bytes:02X?} is not {number}: --case '{}'", case.text())
    });
}

/// A step that must be done: what it writes is right, and nothing else changes.
fn done(bench: &mut Bench, case: &Case, named: &Named, bytes: &[u8]) {
    let (size, first) = (named.0, &named.1);
    let (second, rest) = (bytes[first.len()], &bytes[first.len() + 1..]);
    let bank = case.record[BANK] & 3;
    let r = place_of_r(named, bank).expect("a register");
    let to = place_written(size, &r, second, bank);
    let Some(scale) = feed::scale(second) else {
        return modulo(bench, case, bytes, to);
    };
    let by = match rest {
        [] => value(&case.record, &r),
        constant => value(constant, &(0..size.bytes)),
    };
    let work = Work {
        scale,
        size,
        code: bytes,
        to,
        by,
    };
    hold(bench, case, &work);
}

/// The same of MINC and MDEC.
fn modulo(bench: &mut Bench, case: &Case, bytes: &[u8], to: Range<usize>) {
    let [.., second, low, high] = bytes else {
        unreachable!("MINC and MDEC have a number");
    };
    let step = feed::step(*second).expect("MINC or MDEC");
    let number = step.number([*low, *high]).expect("a number");
    let moved = step.after(value(&case.record, &to) as u16, number);
    let mut wanted = case.record.clone();
    set_value(&mut wanted, &to, moved.into());
    let counter = aim::get_long(&case.record, COUNTER) + bytes.len() as u32;
    aim::put_long(&mut wanted, COUNTER, counter);
    let answer = bench.judge.hold(case);
    let right = answer == Answer::number(0) && bench.judge.left().0 == wanted;
    bench.judge.expect(right, || {
        format!(
            "{bytes:02X?} leaves something else: --case '{}'",
            case.text()
        )
    });
}

/// All of them at the end of each memory, cut behind each byte from the second byte
/// on, until one is judged; and every low byte of a number, with nothing behind it.
pub fn cut_codes(bench: &mut Bench) {
    let forms = forms::listed();
    for _ in 0..bench.rounds {
        for named in every_named() {
            for second in feed::second_bytes() {
                let bytes = code(&mut bench.chance, &named, second);
                cut_from(bench, &forms, &bytes, named.1.len() + 1);
            }
            if bench.judge.weary() {
                return;
            }
        }
        for step in STEPS {
            for low in 0..=255 {
                for first in [&[0xDC][..], &[0xD7, 0x22]] {
                    let bytes = [first, &[step.second, low]].concat();
                    cut_from(bench, &forms, &bytes, bytes.len());
                }
            }
        }
    }
}

/// Beginnings of so many bytes and more, until one is whole or refused.
fn cut_from(bench: &mut Bench, forms: &[Form], bytes: &[u8], least: usize) {
    for length in least..=bytes.len() {
        let there = &bytes[..length];
        cut_there(bench, forms, there);
        if forms::judged(forms, there).0 != 3 {
            return;
        }
    }
}
