//! Jumps, calls and flags.

use super::Bench;
use crate::judge::Answer;
use draw::aim::{self, Layout, FLAGS, XSP};
use draw::case::{Call, Case};
use draw::image::Image;
use forms::requests;
use second::record::{BANK, COUNTER, F, F_PRIME, SR};

const LAYOUT: Layout = Layout { ram: 64, rom: 64 };

/// Every value that a flag register can have.
fn all_flags() -> impl Iterator<Item = u8> {
    (0..=255).filter(|f| f & !FLAGS == 0)
}

/// A step at a place in ROM, counted from its end.
fn near_the_top(bench: &mut Bench, code: &[u8], back: usize) -> Case {
    let mut case = Case {
        call: Call::Step,
        record: aim::record(&mut bench.chance, LAYOUT),
        ram: Image::zeros(LAYOUT.ram),
        rom: Image::zeros(LAYOUT.rom),
    };
    case.rom.put(LAYOUT.rom - back, code);
    let counter = (1 << 24) - back as u32;
    aim::put_long(&mut case.record, COUNTER, counter);
    case
}

/// JR and JRL: every condition with every F, short and far, so that the
/// counter goes round both ways.
pub fn conditions(bench: &mut Bench) {
    for condition in 0..16 {
        for f in all_flags() {
            for distance in [0, 1, 0x7F, 0x80, 0xFE, 0xFF] {
                let mut case = near_the_top(bench, &[0x60 + condition, distance], 2);
                case.record[F] = f;
                aim::draw_marks(&mut bench.chance, &mut case.record);
                bench.judge.hold(&case);
                let high = bench.chance.pick(&[0x00, 0x7F, 0x80, 0xFF]);
                let mut case = near_the_top(bench, &[0x70 + condition, distance, high], 3);
                case.record[F] = f;
                aim::draw_marks(&mut bench.chance, &mut case.record);
                bench.judge.hold(&case);
            }
        }
        if bench.judge.weary() {
            return;
        }
    }
}

/// The codes that touch only the flags or the bank, and those of SR: every F,
/// several F' and every bank; POP F of every byte; LDF with every second byte,
/// from every bank; and EI with every second byte, from every level. The level
/// and the marks are drawn; for POP F, LDF and EI so are F and F'.
pub fn flag_codes(bench: &mut Bench) {
    for f in all_flags() {
        for spare in [0, f ^ FLAGS, bench.chance.byte() & FLAGS] {
            for code in [
                0x00, 0x02, 0x03, 0x07, 0x0C, 0x0D, 0x10, 0x11, 0x12, 0x13, 0x16, 0x18, 0x19,
            ] {
                for bank in 0..4 {
                    let mut case = near_the_top(bench, &[code], 1);
                    let level = bench.chance.below(8) as u8;
                    case.record[F] = f;
                    case.record[BANK] = 0x88 | bank | level << 4;
                    case.record[F_PRIME] = spare;
                    aim::draw_marks(&mut bench.chance, &mut case.record);
                    bench.judge.hold(&case);
                }
            }
        }
    }
    for byte in 0..=255 {
        let mut case = near_the_top(bench, &[0x19], 1);
        aim::set_long(&mut case.record, XSP, 7);
        case.ram.put(7, &[byte]);
        bench.judge.hold(&case);
        for bank in 0..4 {
            let mut case = near_the_top(bench, &[0x17, byte], 2);
            case.record[BANK] = case.record[BANK] & 0xFC | bank;
            bench.judge.hold(&case);
        }
        for level in 0..8 {
            let mut case = near_the_top(bench, &[0x06, byte], 2);
            aim::set_mask(&mut case.record, level);
            bench.judge.hold(&case);
        }
    }
}

/// POP SR and RETI of every word; the rest of what RETI pops is drawn. Both
/// machines are held to what K8 says of the bits that have one value.
pub fn every_status(bench: &mut Bench) {
    const STACK: usize = 7;
    for code in [0x03, 0x07] {
        let mut case = near_the_top(bench, &[code], 1);
        aim::set_long(&mut case.record, XSP, STACK as u32);
        for word in 0..=0xFFFF_u16 {
            aim::draw_flags(&mut bench.chance, &mut case.record);
            let counter = bench.chance.long();
            case.ram.put(STACK, &word.to_le_bytes());
            case.ram.put(STACK + 2, &counter.to_le_bytes());
            let answer = bench.judge.hold(&case);
            let (record, _) = bench.judge.left();
            let status = u16::from_le_bytes([record[SR], record[SR + 1]]);
            let right = answer == Answer::number(0) && status == requests::popped(word);
            bench.judge.expect(right, || {
                format!("SR is {status:04X}: --case '{}'", case.text())
            });
        }
        if bench.judge.weary() {
            return;
        }
    }
}

/// JP, CALL, CALR and RET to and from aimed addresses, with the stack in RAM.
pub fn far_jumps(bench: &mut Bench) {
    for _ in 0..4_000 * bench.rounds {
        let target = aim::address(&mut bench.chance, LAYOUT).to_le_bytes();
        let stack = bench.chance.below(LAYOUT.ram as u32 + 8);
        for (first, length) in [
            (0x1A, 2),
            (0x1B, 3),
            (0x1C, 2),
            (0x1D, 3),
            (0x1E, 2),
            (0x0E, 0),
        ] {
            let mut code = vec![first];
            code.extend_from_slice(&target[..length]);
            let back = code.len() + bench.chance.below(3) as usize;
            let mut case = near_the_top(bench, &code, back);
            aim::set_long(&mut case.record, XSP, stack);
            let top = bench.chance.long();
            case.ram.put(stack as usize, &top.to_le_bytes());
            bench.judge.hold(&case);
        }
        if bench.judge.weary() {
            return;
        }
    }
}
