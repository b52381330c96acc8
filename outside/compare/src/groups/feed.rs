//! MUL, MULS, DIV and DIVS (K7): all byte operands, and words where something
//! turns. A result is not taken from either machine: both are held to what makes
//! it the product, or the quotient and the remainder (`forms::feed`).

mod codes;
mod modulo;
mod packed;

pub use codes::{cut_codes, every_operand};
pub use modulo::{every_number, every_word};

use super::Bench;
use crate::judge::Answer;
use draw::aim::{self, Layout};
use draw::case::{Call, Case};
use draw::chance::Chance;
use forms::banks::{Size, SIZES};
use forms::feed::{self, Scale, DIV, DIVS, SCALES};
use forms::marks;
use second::record::{BANK, COUNTER, F, MARKS};
use std::ops::Range;

const LAYOUT: Layout = Layout { ram: 64, rom: 16 };
/// Where the code stands in ROM.
const PLACE: usize = 4;

const BYTE: Size = SIZES[0];
const WORD: Size = SIZES[1];
/// V in F.
const V: u8 = 0x04;

/// A step of code in ROM, from a drawn record over drawn memories.
fn step_of(chance: &mut Chance, code: &[u8]) -> Case {
    let mut case = Case {
        call: Call::Step,
        record: aim::record(chance, LAYOUT),
        ram: aim::noise(chance, LAYOUT.ram),
        rom: aim::noise(chance, LAYOUT.rom),
    };
    put_code(&mut case, code);
    case
}

/// Puts code in ROM, and the counter there.
fn put_code(case: &mut Case, code: &[u8]) {
    case.rom.put(PLACE, code);
    let counter = LAYOUT.rom_start() + PLACE as u32;
    aim::put_long(&mut case.record, COUNTER, counter);
}

/// The value of a register that stands there.
fn value(record: &[u8], place: &Range<usize>) -> u32 {
    let bytes = record[place.clone()].iter().rev();
    bytes.fold(0, |high, &byte| high << 8 | u32::from(byte))
}

fn set_value(record: &mut [u8], place: &Range<usize>, value: u32) {
    record[place.clone()].copy_from_slice(&value.to_le_bytes()[..place.len()]);
}

/// One of the four at work: what it is, its size, its code, the bytes that it
/// writes, and what it multiplies or divides by.
struct Work<'a> {
    scale: Scale,
    size: Size,
    code: &'a [u8],
    to: Range<usize>,
    by: u32,
}

/// Holds both machines to a step of it: what stands there afterwards is right, and
/// nothing else changes but the counter, V where it divides, and V's mark.
fn hold(bench: &mut Bench, case: &Case, work: &Work) {
    let answer = bench.judge.hold(case);
    let (before, (after, ram)) = (&case.record, bench.judge.left());
    let from = value(before, &work.to);
    let (to, v) = (value(after, &work.to), after[F] & V != 0);
    let right = answer == Answer::number(0)
        && work.scale.leaves(work.size, from, work.by, to, v)
        && after == left(before, after, work)
        && ram == case.ram.bytes;
    bench.judge.expect(right, || {
        let (code, text) = (work.code, case.text());
        format!("{code:02X?} is not done, or leaves something else: --case '{text}'")
    });
}

/// What must be left of a record. What is written, and V of a division, is taken as
/// it was left.
fn left(before: &[u8], after: &[u8], work: &Work) -> Vec<u8> {
    let mut wanted = before.to_vec();
    wanted[work.to.clone()].copy_from_slice(&after[work.to.clone()]);
    if work.scale.divides {
        wanted[F] = before[F] & !V | after[F] & V;
    }
    wanted[MARKS] = marks::after(work.code, before[MARKS]);
    let counter = aim::get_long(before, COUNTER) + work.code.len() as u32;
    aim::put_long(&mut wanted, COUNTER, counter);
    wanted
}

/// A step of a scale on two values, by a register and then by a constant: the
/// registers and the bank are drawn.
fn both_forms(bench: &mut Bench, scale: Scale, size: Size, from: u32, by: u32) {
    let bank = bench.chance.below(4) as u8;
    by_register(bench, scale, size, (from, by), bank);
    by_constant(bench, scale, size, (from, by), bank);
}

/// R that names the lower half of a register of twice the size.
fn lower_half(chance: &mut Chance, size: Size) -> u8 {
    match size.bytes {
        1 => chance.pick(&[1, 3, 5, 7]),
        _ => chance.below(8) as u8,
    }
}

/// A step of it, with this bank current and this value where it writes.
fn case_of(chance: &mut Chance, work: &Work, from: u32, bank: u8) -> Case {
    let mut case = step_of(chance, work.code);
    case.record[BANK] = case.record[BANK] & 0xFC | bank;
    set_value(&mut case.record, &work.to, from);
    case
}

fn by_register(bench: &mut Bench, scale: Scale, size: Size, (from, by): (u32, u32), bank: u8) {
    let chance = &mut bench.chance;
    let large = lower_half(chance, size);
    let to = size.whole(size.plain(large, bank)).expect("a lower half");
    // Another register than R, and no half of what R stands for.
    let others: Vec<u8> = (0..8)
        .filter(|&r| !to.contains(&size.plain(r, bank).start))
        .collect();
    let r = chance.pick(&others);
    let code = [size.plain + r, scale.with_register + large];
    let work = Work {
        scale,
        size,
        code: &code,
        to,
        by,
    };
    let mut case = case_of(chance, &work, from, bank);
    set_value(&mut case.record, &size.plain(r, bank), by);
    hold(bench, &case, &work);
}

fn by_constant(bench: &mut Bench, scale: Scale, size: Size, (from, by): (u32, u32), bank: u8) {
    let r = lower_half(&mut bench.chance, size);
    let to = size.whole(size.plain(r, bank)).expect("a lower half");
    let first = [size.plain + r, scale.with_constant];
    let code = [&first, &by.to_le_bytes()[..size.bytes]].concat();
    let work = Work {
        scale,
        size,
        code: &code,
        to,
        by,
    };
    let case = case_of(&mut bench.chance, &work, from, bank);
    hold(bench, &case, &work);
}

/// MUL and MULS on every pair of bytes, by a register and by a constant.
pub fn every_byte_product(bench: &mut Bench) {
    for scale in SCALES.into_iter().filter(|scale| !scale.divides) {
        for left in 0..=255 {
            for right in 0..=255 {
                let from = left | u32::from(bench.chance.byte()) << 8;
                both_forms(bench, scale, BYTE, from, right);
            }
            if bench.judge.weary() {
                return;
            }
        }
    }
}

/// DIV of every word by every byte.
pub fn every_byte_div(bench: &mut Bench) {
    every_byte_quotient(bench, DIV);
}

/// DIVS of every word by every byte.
pub fn every_byte_divs(bench: &mut Bench) {
    every_byte_quotient(bench, DIVS);
}

/// By a constant: a dividend in every word that is not XSP's.
fn every_byte_quotient(bench: &mut Bench, scale: Scale) {
    let divisors = match bench.sparse {
        true => some_bytes(bench),
        false => (0..=255).collect(),
    };
    for divisor in divisors {
        packed::by_constant(bench, scale, divisor);
        if bench.judge.weary() {
            return;
        }
    }
}

/// By a register: every word by the bytes at which something turns and by drawn
/// ones; and by every byte the words at which its quotient begins or ceases to fit,
/// and drawn ones.
pub fn byte_quotient_ends(bench: &mut Bench) {
    for scale in [DIV, DIVS] {
        for divisor in some_bytes(bench) {
            packed::by_register(bench, scale, divisor);
        }
        for divisor in 0..=255 {
            quotients_by(bench, scale, BYTE, divisor);
            if bench.judge.weary() {
                return;
            }
        }
    }
}

/// The divisors at which something turns, and drawn ones.
fn some_bytes(bench: &mut Bench) -> Vec<u8> {
    const TURNS: [u8; 7] = [0x00, 0x01, 0x02, 0x7F, 0x80, 0x81, 0xFF];
    let drawn = (0..9 * bench.rounds).map(|_| bench.chance.byte());
    TURNS.into_iter().chain(drawn).collect()
}

/// Words at which products and quotients turn.
const WORDS: [u32; 20] = [
    0x0000, 0x0001, 0x0002, 0x0003, 0x007F, 0x0080, 0x0081, 0x00FF, 0x0100, 0x0101, 0x5555, 0x7FFE,
    0x7FFF, 0x8000, 0x8001, 0x8002, 0xAAAA, 0xFFFD, 0xFFFE, 0xFFFF,
];

/// MUL and MULS on every pair of such words, and on drawn ones.
pub fn word_products(bench: &mut Bench) {
    for scale in SCALES.into_iter().filter(|scale| !scale.divides) {
        for left in WORDS {
            for right in WORDS {
                let from = left | bench.chance.long() << 16;
                both_forms(bench, scale, WORD, from, right);
            }
        }
        for _ in 0..40_000 * bench.rounds {
            let (from, by) = (aim::value(&mut bench.chance), aim::value(&mut bench.chance));
            both_forms(bench, scale, WORD, from, by & 0xFFFF);
        }
        if bench.judge.weary() {
            return;
        }
    }
}

/// DIV and DIVS by every such word and by drawn ones.
pub fn word_quotients(bench: &mut Bench) {
    for scale in [DIV, DIVS] {
        let drawn = (0..300 * bench.rounds).map(|_| aim::value(&mut bench.chance) & 0xFFFF);
        let divisors: Vec<u32> = WORDS.into_iter().chain(drawn).collect();
        for divisor in divisors {
            quotients_by(bench, scale, WORD, divisor);
            if bench.judge.weary() {
                return;
            }
        }
    }
}

/// Dividends where the quotient by this divisor turns, drawn ones, and drawn ones
/// whose quotient fits.
fn quotients_by(bench: &mut Bench, scale: Scale, size: Size, by: u32) {
    for from in dividends(size, by) {
        both_forms(bench, scale, size, from, by);
    }
    for _ in 0..20 {
        let any = cut_to(2 * size.bytes, aim::value(&mut bench.chance).into());
        both_forms(bench, scale, size, any, by);
        let fitting = fitting(&mut bench.chance, scale, size, by);
        both_forms(bench, scale, size, fitting, by);
    }
}

/// A drawn quotient times the divisor, and a drawn remainder away from zero.
fn fitting(chance: &mut Chance, scale: Scale, size: Size, by: u32) -> u32 {
    let drawn = cut_to(size.bytes, chance.long().into());
    let [quotient, divisor] =
        [drawn, by].map(|value| feed::number(size.bytes, value, scale.signed));
    let rest = i64::from(chance.long()) % divisor.abs().max(1);
    let product = quotient * divisor;
    let away = if product < 0 { -rest } else { rest };
    cut_to(2 * size.bytes, product + away)
}

/// Any number, cut to so many bytes.
fn cut_to(bytes: usize, number: i64) -> u32 {
    (number & ((1 << (8 * bytes)) - 1)) as u32
}

/// What has as its quotient by this divisor, with a sign or without: 0, 1, and what
/// just fits or just does not; each, and two to both sides of it. And the ends.
fn dividends(size: Size, by: u32) -> Vec<u32> {
    let all = 1_i64 << (8 * size.bytes);
    let by = i64::from(by);
    let quotients = [0, 1, all / 2 - 1, all / 2, all / 2 + 1, all - 1, all];
    let products = quotients
        .into_iter()
        .flat_map(|quotient| [by, by - all].map(|divisor| quotient * divisor));
    let near = products
        .flat_map(|product| [product, -product])
        .flat_map(|product| (-2..=2).map(move |more| product + more));
    let ends = [all * all / 2 - 1, all * all / 2, all * all / 2 + 1, -1];
    let mut found: Vec<u32> = near
        .chain(ends)
        .map(|number| cut_to(2 * size.bytes, number))
        .collect();
    found.sort_unstable();
    found.dedup();
    found
}
