//! Records that are no state's.

use super::Bench;
use draw::aim::{self, Layout};
use draw::case::{Call, Case};
use draw::image::Image;
use second::record::{COUNTER, F, F_PRIME, MARKS};

const LAYOUT: Layout = Layout { ram: 32, rom: 32 };
const CALLS: [Call; 6] = [
    Call::Step,
    Call::Run(0),
    Call::Run(2),
    Call::Run(1_000_001),
    Call::Request(7, 0),
    Call::Request(8, 0),
];

fn with_record(record: Vec<u8>) -> Case {
    Case {
        call: Call::Step,
        record,
        ram: Image::zeros(LAYOUT.ram),
        rom: Image::zeros(LAYOUT.rom),
    }
}

fn hold_all(bench: &mut Bench, case: &mut Case) {
    for call in CALLS {
        case.call = call;
        bench.judge.hold(case);
    }
}

/// Each bit of several good records turned over, alone and with others; every
/// value of the bytes that have rules; and every set of marks.
pub fn bits(bench: &mut Bench) {
    for _ in 0..6 * bench.rounds {
        let mut case = with_record(aim::record(&mut bench.chance, LAYOUT));
        near(bench, &mut case, hold_all);
        marks(bench, &mut case, hold_all);
        if bench.judge.weary() {
            return;
        }
    }
}

/// Each bit of a record turned over, alone and with another; and every value of
/// the bytes from the counter on.
pub fn near(bench: &mut Bench, case: &mut Case, hold: fn(&mut Bench, &mut Case)) {
    let turn = |case: &mut Case, bit: usize| case.record[bit / 8] ^= 1 << (bit % 8);
    let bits = 8 * case.record.len();
    for bit in 0..bits {
        turn(case, bit);
        hold(bench, case);
        let other = bench.chance.below(bits as u32) as usize;
        turn(case, other);
        hold(bench, case);
        turn(case, other);
        turn(case, bit);
    }
    for place in COUNTER..case.record.len() {
        let kept = case.record[place];
        for value in 0..=255 {
            case.record[place] = value;
            hold(bench, case);
        }
        case.record[place] = kept;
    }
}

/// Every value of the byte with the marks, with every H and V of F and F'.
pub fn marks(bench: &mut Bench, case: &mut Case, hold: fn(&mut Bench, &mut Case)) {
    const H_AND_V: [u8; 4] = [0x00, 0x04, 0x10, 0x14];
    for marks in 0..=255 {
        case.record[MARKS] = marks;
        for f in H_AND_V {
            for spare in H_AND_V {
                case.record[F] = case.record[F] & !0x14 | f;
                case.record[F_PRIME] = case.record[F_PRIME] & !0x14 | spare;
                hold(bench, case);
            }
        }
    }
}

/// Records of every length to 200, the old one of 88 bytes too: cut short, made
/// longer, and of noise.
pub fn lengths(bench: &mut Bench) {
    for length in 0..=200 {
        for _ in 0..2 * bench.rounds {
            let mut good = aim::record(&mut bench.chance, LAYOUT);
            good.resize(length, 0);
            let mut noise = vec![0; length];
            bench.chance.fill(&mut noise);
            for record in [good, noise, vec![0; length]] {
                let mut case = with_record(record);
                hold_all(bench, &mut case);
                case.call = Call::Reset;
                bench.judge.hold(&case);
                case.rom = aim::noise(&mut bench.chance, 256);
                bench.judge.hold(&case);
            }
        }
        if bench.judge.weary() {
            return;
        }
    }
}
