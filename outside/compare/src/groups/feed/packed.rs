//! Many divisions of bytes in one run, so that every word can be divided by every
//! byte: a dividend in each of many registers, and F pushed behind each division.

use super::{set_value, value, BYTE, V};
use crate::groups::Bench;
use crate::judge::Answer;
use draw::aim::{self, Layout};
use draw::case::{Call, Case};
use draw::image::Image;
use forms::feed::Scale;
use forms::marks;
use second::record::{BANK, BANK_SIZE, COUNTER, F, MARKS, SHARED};

const INCF: u8 = 0x0C;
const PUSH_F: u8 = 0x18;
/// Where XSP stands in a record.
const XSP: usize = COUNTER - 4;
/// The code of the lowest byte of XIX behind C7.
const IXL: u8 = 0xF0;

/// A run of divisions by one byte.
struct Packed {
    scale: Scale,
    by: u8,
    /// Where the dividends stand in a record, in the order in which they are divided.
    places: Vec<usize>,
    /// All of ROM: the run ends where ROM does.
    code: Vec<u8>,
    steps: u32,
    /// A record to begin with, but for the dividends.
    record: Vec<u8>,
}

/// By a constant: in every word of the registers that is not XSP's, by its code.
pub fn by_constant(bench: &mut Bench, scale: Scale, by: u8) {
    let codes = (0x00..0x40).chain(0xF0..0xFC).step_by(2);
    let one = |code| [0xC7, code, scale.with_constant, by, PUSH_F];
    let places: Vec<usize> = (0..XSP).step_by(2).collect();
    let packed = Packed {
        scale,
        by,
        steps: 2 * places.len() as u32,
        places,
        code: codes.flat_map(one).collect(),
        record: aim::record(&mut bench.chance, Layout { ram: 0, rom: 0 }),
    };
    every_word(bench, packed);
}

/// By a register, IXL: in WA, BC, DE and HL of each bank, from a drawn one on.
pub fn by_register(bench: &mut Bench, scale: Scale, by: u8) {
    let bank = bench.chance.below(4) as usize;
    let banks = (bank..bank + 4).map(|bank| bank % 4 * BANK_SIZE);
    let places = banks.flat_map(|first| (first..first + BANK_SIZE).step_by(4));
    let one = |large| [0xC7, IXL, scale.with_register + large, PUSH_F];
    let of_bank: Vec<u8> = [1, 3, 5, 7].into_iter().flat_map(one).collect();
    let mut record = aim::record(&mut bench.chance, Layout { ram: 0, rom: 0 });
    record[BANK] = record[BANK] & 0xFC | bank as u8;
    record[SHARED] = by;
    let packed = Packed {
        scale,
        by,
        places: places.collect(),
        code: [&of_bank[..], &[INCF]].concat().repeat(4),
        steps: 4 * (2 * 4 + 1),
        record,
    };
    every_word(bench, packed);
}

/// Runs with every dividend, as many at a time as there are places.
fn every_word(bench: &mut Bench, packed: Packed) {
    let layout = Layout {
        ram: packed.places.len(),
        rom: packed.code.len(),
    };
    let mut case = Case {
        call: Call::Run(packed.steps),
        record: packed.record.clone(),
        ram: Image::zeros(layout.ram),
        rom: Image::of(&packed.code),
    };
    aim::put_long(&mut case.record, COUNTER, layout.rom_start());
    aim::put_long(&mut case.record, XSP, layout.ram as u32);
    for first in (0..0x1_0000).step_by(packed.places.len()) {
        aim::draw_flags(&mut bench.chance, &mut case.record);
        // A mark of H would stop the first push; one of V is cleared before it.
        case.record[MARKS] &= !marks::H;
        for (dividend, &place) in (first..).zip(&packed.places) {
            set_value(&mut case.record, &(place..place + 2), dividend & 0xFFFF);
        }
        hold(bench, &case, &packed);
        if bench.judge.weary() {
            return;
        }
    }
}

/// Holds both machines to a run: each quotient and the F behind it are right, and
/// nothing else changes but the counter, XSP, V and V's mark.
fn hold(bench: &mut Bench, case: &Case, packed: &Packed) {
    let answer = bench.judge.hold(case);
    let (after, ram) = bench.judge.left();
    let before = &case.record;
    let (mut wanted, mut f) = (before.clone(), before[F]);
    let mut right = answer == Answer::run((packed.steps, 0, 0));
    for (&place, &pushed) in packed.places.iter().zip(ram.iter().rev()) {
        let place = place..place + 2;
        let (from, to) = (value(before, &place), value(after, &place));
        let (by, v) = (u32::from(packed.by), pushed & V != 0);
        right &= packed.scale.leaves(BYTE, from, by, to, v);
        right &= pushed & !V == before[F] & !V;
        set_value(&mut wanted, &place, to);
        f = pushed;
    }
    wanted[F] = f;
    wanted[MARKS] &= !marks::V;
    aim::put_long(&mut wanted, COUNTER, 0);
    aim::put_long(&mut wanted, XSP, 0);
    right &= after == wanted;
    bench.judge.expect(right, || {
        format!(
            "{answer:?}, or something else is left: --case '{}'",
            case.text()
        )
    });
}
