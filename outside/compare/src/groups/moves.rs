//! The moves of K9. What one answers, and what it leaves in the room, is not
//! taken from either machine: both are held to the list in `forms`. Each group
//! has to have met what it is there for.

use super::records::{marks, near};
use super::requests::{a_turn, program};
use super::Bench;
use crate::judge::{Answer, Tally};
use draw::aim::{self, Layout};
use draw::case::{Call, Case};
use draw::chance::Chance;
use draw::image::Image;
use forms::records::{self, NEW, OLD};
use second::record::{MARKS, NESTING};
use std::collections::BTreeSet;

const LAYOUT: Layout = Layout { ram: 32, rom: 32 };

/// Lengths that would be right ones, if only their low byte or word were looked
/// at; and twice the right ones.
const FAR: [usize; 6] = [
    2 * OLD,
    2 * NEW,
    0x100 + OLD,
    0x100 + NEW,
    0x1_0000 + OLD,
    0x1_0000 + NEW,
];

/// How long the room for a move has to be, and the move back.
fn room_of(call: Call) -> (usize, Call) {
    match call {
        Call::Widen => (NEW, Call::Narrow),
        _ => (OLD, Call::Widen),
    }
}

/// A move to a room of noise.
fn to_room(chance: &mut Chance, call: Call, record: Vec<u8>, room: usize) -> Case {
    Case::of_move(call, record, aim::noise(chance, room))
}

/// A move to a room of the right length.
fn to_right_room(chance: &mut Chance, call: Call, record: Vec<u8>) -> Case {
    to_room(chance, call, record, room_of(call).0)
}

/// Moves a record, and holds it to what K9 says.
fn held(bench: &mut Bench, case: &Case) -> Answer {
    let answer = bench.judge.hold(case);
    let (_, room) = bench.judge.left();
    let right = fits(case, room, answer);
    bench.judge.expect(right, || {
        format!(
            "K9 says otherwise than {answer:?}: --case '{}'",
            case.text()
        )
    });
    answer
}

/// Whether an answer, and what was left in the room, fit the list.
fn fits(case: &Case, room: &[u8], answer: Answer) -> bool {
    let (record, length) = (&case.record, case.ram.len());
    let wanted = match case.call {
        Call::Widen => records::widened(record, length),
        _ => records::narrowed(record, length),
    };
    let left = match (wanted, case.call) {
        (0, Call::Widen) => room[..OLD] == record[..] && room[OLD..] == [0; NEW - OLD],
        (0, _) => room == &record[..OLD],
        _ => room == case.ram.bytes,
    };
    answer == Answer::number(wanted) && left
}

/// Moves of every outcome were met.
fn expect_all(bench: &mut Bench) {
    let Tally {
        widened, narrowed, ..
    } = bench.judge.tally;
    for (what, times) in [
        ("widened", widened.done),
        ("widened with 2", widened.bad),
        ("narrowed", narrowed.done),
        ("narrowed with 2", narrowed.bad),
        ("narrowed with 10", narrowed.unheld),
    ] {
        bench
            .judge
            .expect(times > 0, || format!("no record was {what}"));
    }
}

/// Each bit of several good records of both forms turned over, alone and with
/// others; every value of the bytes that have rules; and every set of marks with
/// every H and V. One record in two has an old form: from that, each bit of the
/// count and each mark comes in alone.
pub fn bits(bench: &mut Bench) {
    for _ in 0..20 * bench.rounds {
        let plain = aim::plain_record(&mut bench.chance, LAYOUT);
        let any = aim::record(&mut bench.chance, LAYOUT);
        for record in [plain, any] {
            bits_of(bench, record);
        }
        if bench.judge.weary() {
            return;
        }
    }
    expect_all(bench);
}

fn bits_of(bench: &mut Bench, record: Vec<u8>) {
    let hold = |bench: &mut Bench, case: &mut Case| {
        held(bench, case);
    };
    let old = record[..OLD].to_vec();
    let mut case = to_right_room(&mut bench.chance, Call::Widen, old);
    near(bench, &mut case, hold);
    let mut case = to_right_room(&mut bench.chance, Call::Narrow, record);
    near(bench, &mut case, hold);
    marks(bench, &mut case, hold);
}

/// Records of every length to 100 and rooms of every length to 100, in all pairs;
/// and some far longer.
pub fn lengths(bench: &mut Bench) {
    for _ in 0..bench.rounds {
        for length in 0..=100 {
            for room in 0..=100 {
                each_sort(bench, length, room);
            }
            if bench.judge.weary() {
                return;
            }
        }
        for far in FAR {
            for right in [OLD, NEW] {
                each_sort(bench, far, right);
                each_sort(bench, right, far);
            }
        }
    }
    expect_all(bench);
}

/// Good records, one that the old form holds and one that it does not, cut short
/// or made longer; noise; and zeros.
fn each_sort(bench: &mut Bench, length: usize, room: usize) {
    let chance = &mut bench.chance;
    let mut plain = aim::plain_record(chance, LAYOUT);
    let mut unheld = aim::record(chance, LAYOUT);
    aim::set_nesting(&mut unheld, 1 + chance.below(0xFFFF) as u16);
    let mut noise = vec![0; length];
    plain.resize(length, 0);
    unheld.resize(length, 0);
    chance.fill(&mut noise);
    for record in [plain, unheld, noise, vec![0; length]] {
        for call in [Call::Widen, Call::Narrow] {
            let case = to_room(&mut bench.chance, call, record.clone(), room);
            held(bench, &case);
        }
    }
}

/// Noise; since that is hardly ever a record, most of it brought right but for
/// the marks, and for a bit now and then.
pub fn noise(bench: &mut Bench) {
    for _ in 0..200_000 * bench.rounds {
        let chance = &mut bench.chance;
        let mut record = vec![0; NEW];
        chance.fill(&mut record);
        if !chance.once_in(8) {
            records::mend(&mut record);
        }
        match chance.below(4) {
            0 => record[MARKS] = 0,
            1 => record[NESTING..].fill(0),
            _ => {}
        }
        let bit = chance.below(8 * NEW as u32) as usize;
        record[bit / 8] ^= u8::from(chance.once_in(4)) << (bit % 8);
        let call = chance.pick(&[Call::Widen, Call::Narrow]);
        record.truncate(NEW + OLD - room_of(call).0);
        let case = to_right_room(chance, call, record);
        held(bench, &case);
        if bench.judge.weary() {
            return;
        }
    }
    expect_all(bench);
}

/// A record moved by the library, if it is not refused.
fn moved(bench: &mut Bench, call: Call, record: &[u8]) -> Option<Vec<u8>> {
    let case = to_right_room(&mut bench.chance, call, record.to_vec());
    let answer = held(bench, &case);
    let (_, room) = bench.judge.left();
    (answer == Answer::number(0)).then(|| room.to_vec())
}

/// Whether a run of 0 steps without memories says that a record is good.
fn is_good(bench: &mut Bench, record: Vec<u8>) -> bool {
    let case = Case {
        call: Call::Run(0),
        record,
        ram: Image::zeros(0),
        rom: Image::zeros(0),
    };
    bench.judge.hold(&case) == Answer::number(0)
}

/// A record moved and, if that was not refused, moved back is the same bytes. That
/// of the new form came from a move, and is good.
fn there_and_back(bench: &mut Bench, call: Call, record: &[u8]) {
    let Some(there) = moved(bench, call, record) else {
        return;
    };
    let (room, other_way) = room_of(call);
    let back = moved(bench, other_way, &there);
    let same = back.as_deref() == Some(record);
    let new = match call {
        Call::Widen => Some(there),
        _ => back,
    };
    let right = match new {
        Some(new) => same && is_good(bench, new),
        None => false,
    };
    bench.judge.expect(right, || {
        let case = Case::of_move(call, record.to_vec(), Image::zeros(room));
        format!("not the same there and back: --case '{}'", case.text())
    });
}

/// Good records of both forms, moved and moved back.
pub fn and_back(bench: &mut Bench) {
    for _ in 0..30_000 * bench.rounds {
        let plain = aim::plain_record(&mut bench.chance, LAYOUT);
        let any = aim::record(&mut bench.chance, LAYOUT);
        for record in [plain, any] {
            there_and_back(bench, Call::Widen, &record[..OLD]);
            there_and_back(bench, Call::Narrow, &record);
        }
        if bench.judge.weary() {
            return;
        }
    }
}

/// Records that steps and requests have left, with a count, a mark, both or none,
/// moved back and forth.
pub fn after_steps(bench: &mut Bench) {
    let forms = forms::listed();
    let (mut met, mut offered) = (BTreeSet::new(), BTreeSet::new());
    for _ in 0..1_000 * bench.rounds {
        let mut case = program(&mut bench.chance, &forms);
        aim::set_nesting(&mut case.record, 0);
        for _ in 0..40 {
            if bench.chance.once_in(3) {
                a_turn(bench, &mut case, &mut offered);
            } else {
                case.call = Call::Run(1 + bench.chance.below(4));
                bench.judge.hold_and_carry(&mut case);
            }
            let left = &case.record;
            met.insert((aim::nesting(left) != 0, left[MARKS] != 0));
            there_and_back(bench, Call::Narrow, left);
        }
        if bench.judge.weary() {
            return;
        }
    }
    bench.judge.expect(met.len() == 4, || {
        format!("with a count and with a mark, only {met:?}")
    });
}
