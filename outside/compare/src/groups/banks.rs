//! All the bank registers (K1): every code behind C7, D7 and E7, with every byte
//! behind that. What a code names, what a form writes and which number it gets is
//! not taken from either machine: both are held to the lists in `forms`. And a
//! register must do by K1's form what one of 01's does by 01's.

use super::Bench;
use crate::judge::Answer;
use draw::aim::{self, Layout};
use draw::case::{Call, Case};
use draw::chance::Chance;
use draw::image::Image;
use forms::banks::{overlap, place_written, stand_ins, Size, SIZES};
use forms::{feed, marks, Form};
use second::record::{BANK, COUNTER, F, MARKS};
use std::ops::Range;

const LAYOUT: Layout = Layout { ram: 16, rom: 16 };
/// Where the code stands in ROM.
const PLACE: usize = 4;

/// The forms that begin with C7, D7 or E7.
fn forms_of_k1() -> Vec<Form> {
    let mut forms = forms::listed();
    forms.retain(Form::is_of_k1);
    forms
}

/// A step from a record, over drawn memories.
fn step_from(chance: &mut Chance, record: Vec<u8>) -> Case {
    Case {
        call: Call::Step,
        record,
        ram: aim::noise(chance, LAYOUT.ram),
        rom: aim::noise(chance, LAYOUT.rom),
    }
}

/// Puts code in ROM, and the counter there.
fn put_code(case: &mut Case, bytes: &[u8]) {
    case.rom.put(PLACE, bytes);
    let counter = LAYOUT.rom_start() + PLACE as u32;
    aim::put_long(&mut case.record, COUNTER, counter);
}

/// A record whose register bytes all differ.
fn telling(chance: &mut Chance, bank: u8) -> Vec<u8> {
    let mut record = aim::record(chance, LAYOUT);
    let (start, step) = (chance.byte(), chance.byte() | 1);
    for (place, byte) in record[..COUNTER].iter_mut().enumerate() {
        *byte = start.wrapping_add(step.wrapping_mul(place as u8));
    }
    record[BANK] = record[BANK] & 0xFC | bank;
    record
}

/// Whether a code names a register of this size: it does in all banks or in none.
fn names(size: Size, code: u8) -> bool {
    size.named(code, 0).is_some()
}

/// A code that names a register of this size.
fn good_code(chance: &mut Chance, size: Size) -> u8 {
    let good: Vec<u8> = (0..=255).filter(|&code| names(size, code)).collect();
    chance.pick(&good)
}

/// Every code in every size and every bank, with every second byte, from records
/// whose register bytes all differ. With a code that names nothing, each second
/// byte is tried in one of the banks.
pub fn every_code(bench: &mut Bench) {
    // In each bank: the good codes of a size, with its good second bytes. MUL to
    // DIVS by a constant are good with every other code of bytes and of words.
    const DONE: u32 = 4 * (112 * 125 + 56 * 4 + 56 * 149 + 28 * 4 + 28 * 111);
    let forms = forms_of_k1();
    let mut done = 0;
    for _ in 0..bench.rounds {
        for size in SIZES {
            for code in 0..=255 {
                for bank in 0..4 {
                    done += every_second_byte(bench, &forms, (size, code), bank);
                }
                if bench.judge.weary() {
                    return;
                }
            }
        }
    }
    bench.judge.expect(done == DONE * bench.rounds, || {
        format!("{done} steps were done, to be {DONE} a round")
    });
}

/// A number that MINC and MDEC may have, as it stands in the code.
pub fn coded_number(chance: &mut Chance, step: feed::Step) -> [u8; 2] {
    let numbers: Vec<u16> = step.numbers().collect();
    step.coded(chance.pick(&numbers))
}

/// How many of them were done.
fn every_second_byte(bench: &mut Bench, forms: &[Form], (size, code): (Size, u8), bank: u8) -> u32 {
    let record = telling(&mut bench.chance, bank);
    let mut case = step_from(&mut bench.chance, record);
    let (first, step) = if names(size, code) { (0, 1) } else { (bank, 4) };
    let mut done = 0;
    for second in (first..=255).step_by(step) {
        aim::draw_flags(&mut bench.chance, &mut case.record);
        let [mut a, mut b, c, d] = bench.chance.long().to_le_bytes();
        if second >= 0xEC {
            // Shifts among them: so many places are listed.
            a &= 0x0F;
        }
        if let Some(step) = feed::step(second) {
            [a, b] = coded_number(&mut bench.chance, step);
        }
        let bytes = [size.any, code, second, a, b, c, d];
        done += u32::from(hold(bench, forms, &mut case, &bytes));
    }
    done
}

/// Everything that the list has of K1, drawn, from drawn records; and shifts with
/// every byte behind them.
pub fn drawn(bench: &mut Bench) {
    let forms = forms_of_k1();
    for _ in 0..bench.rounds {
        for form in &forms {
            for _ in 0..2_500 {
                let bytes = aim::code(&mut bench.chance, form, LAYOUT);
                from_drawn(bench, &forms, &bytes);
            }
        }
        for size in SIZES {
            for count in 0..=255 {
                for shift in 0xEC..=0xEF {
                    let code = good_code(&mut bench.chance, size);
                    from_drawn(bench, &forms, &[size.any, code, shift, count]);
                }
            }
        }
        if bench.judge.weary() {
            return;
        }
    }
}

fn from_drawn(bench: &mut Bench, forms: &[Form], bytes: &[u8]) {
    let record = aim::record(&mut bench.chance, LAYOUT);
    let mut case = step_from(&mut bench.chance, record);
    hold(bench, forms, &mut case, bytes);
}

/// A step of K1's code: whether it is done. It must get the number that the list
/// says, and leave what the list says and what 01's form leaves.
fn hold(bench: &mut Bench, forms: &[Form], case: &mut Case, bytes: &[u8]) -> bool {
    put_code(case, bytes);
    let (number, length) = forms::judged(forms, bytes);
    let answer = bench.judge.hold(case);
    let (after, ram) = bench.judge.left();
    let after = after.to_vec();
    let wanted = match number {
        0 => left(&case.record, &after, &bytes[..length]),
        _ => case.record.clone(),
    };
    let same = after == wanted && ram == case.ram.bytes;
    let right = same && answer == Answer::number(number);
    bench.judge.expect(right, || {
        let text = case.text();
        format!("{bytes:02X?} is not {number}, or leaves something else: --case '{text}'")
    });
    if number == 0 {
        hold_to_01(bench, case, &after, bytes);
    }
    number == 0
}

/// The size of the operand, and the bytes that are named.
fn operand(record: &[u8], bytes: &[u8]) -> (Size, Range<usize>) {
    let size = SIZES.into_iter().find(|size| size.any == bytes[0]);
    let size = size.expect("C7, D7 or E7");
    let named = size.named(bytes[1], record[BANK] & 3);
    (size, named.expect("a code that names a register"))
}

/// What an instruction must have left of a record. What is in F, and in a register
/// that it does not just load, is taken as it was left.
fn left(before: &[u8], after: &[u8], bytes: &[u8]) -> Vec<u8> {
    let (size, named) = operand(before, bytes);
    let bank = before[BANK] & 3;
    let beside = size.plain(bytes[2] & 7, bank);
    let place = place_written(size, &named, bytes[2], bank);
    let put = match bytes[2] {
        0x03 => &bytes[3..],
        0x88..=0x8F => &before[named],
        0x98..=0x9F => &before[beside],
        _ => &after[place.clone()],
    };
    let mut wanted = before.to_vec();
    wanted[place].copy_from_slice(put);
    wanted[F] = after[F];
    wanted[MARKS] = marks::after(bytes, before[MARKS]);
    let counter = aim::get_long(before, COUNTER) + bytes.len() as u32;
    aim::put_long(&mut wanted, COUNTER, counter);
    wanted
}

/// What can stand for r in 01's form: its number and its bytes, and the bytes of r;
/// of a register of twice the size, where that is meant. `None` if there is nothing,
/// since r is a half of what is written for R.
fn in_place_of_r(
    chance: &mut Chance,
    record: &[u8],
    bytes: &[u8],
) -> Option<(u8, Range<usize>, Range<usize>)> {
    let (size, named) = operand(record, bytes);
    let (second, bank) = (bytes[2], record[BANK] & 3);
    let taken = |r| size.taken(second, r);
    let named = taken(named).expect("a register that the form can have");
    let itself = (0..8).find(|&r| taken(size.plain(r, bank)) == Some(named.clone()));
    if let Some(r) = itself {
        return Some((r, named.clone(), named));
    }
    if overlap(&named, &size.beside(second, bank)) {
        return None;
    }
    let others = stand_ins(size, second, bank);
    let (r, plain) = others[chance.below(others.len() as u32) as usize].clone();
    Some((r, plain, named))
}

/// The same by 01's form, a byte shorter. The register changes places with one of
/// 01's before it, and back behind it; one that is of 01 stays where it is.
fn hold_to_01(bench: &mut Bench, case: &mut Case, after: &[u8], bytes: &[u8]) {
    let stand_in = in_place_of_r(&mut bench.chance, &case.record, bytes);
    let Some((r, plain, named)) = stand_in else {
        return;
    };
    let (size, _) = operand(&case.record, bytes);

    let short = [&[size.plain + r], &bytes[2..]].concat();
    put_code(case, &short);
    exchange(&mut case.record, &named, &plain);
    let answer = bench.judge.hold(case);
    exchange(&mut case.record, &named, &plain);
    let mut other = bench.judge.left().0.to_vec();
    exchange(&mut other, &named, &plain);
    let counter = aim::get_long(&other, COUNTER) + 1;
    aim::put_long(&mut other, COUNTER, counter);
    let right = answer == Answer::number(0) && other == after;
    bench.judge.expect(right, || {
        put_code(case, bytes);
        let text = case.text();
        format!("{bytes:02X?} does something else than {short:02X?}: --case '{text}'")
    });
}

/// Exchanges the bytes of two registers.
fn exchange(record: &mut [u8], one: &Range<usize>, other: &Range<usize>) {
    for (one, other) in one.clone().zip(other.clone()) {
        record.swap(one, other);
    }
}

/// Every code, and every byte behind a code that names a register: at the end of
/// each memory, all of it and cut behind each byte.
pub fn cut(bench: &mut Bench) {
    let forms = forms_of_k1();
    for _ in 0..bench.rounds {
        for size in SIZES {
            let of_size = |form: &&Form| form.slots[0].takes(size.any);
            let of_size: Vec<&Form> = forms.iter().filter(of_size).collect();
            for byte in 0..=255 {
                let form = bench.chance.pick(&of_size);
                let mut bytes = aim::code(&mut bench.chance, form, LAYOUT);
                bytes[1] = byte;
                cut_code(bench, &forms, &bytes);
                let code = good_code(&mut bench.chance, size);
                let [a, b, c, d] = bench.chance.long().to_le_bytes();
                cut_code(bench, &forms, &[size.any, code, byte, a, b, c, d]);
            }
            if bench.judge.weary() {
                return;
            }
        }
    }
}

/// Every beginning of a code, where a memory ends behind it. It must get the number
/// that the list says, judged byte by byte.
fn cut_code(bench: &mut Bench, forms: &[Form], bytes: &[u8]) {
    for there in 1..=bytes.len() {
        cut_there(bench, forms, &bytes[..there]);
    }
}

/// Code at the end of each memory, stepped and shown.
pub fn cut_there(bench: &mut Bench, forms: &[Form], there: &[u8]) {
    let (number, length) = forms::judged(forms, there);
    for in_ram in [true, false] {
        let (mut case, at) = at_an_end(&mut bench.chance, there, in_ram);
        let shown = Answer::counted((length as u32, number));
        for (call, wanted) in [
            (Call::Step, Answer::number(number)),
            (Call::Show(at), shown),
        ] {
            case.call = call;
            let answer = bench.judge.hold(&case);
            bench.judge.expect(answer == wanted, || {
                format!("{answer:?}, to be {wanted:?}: --case '{}'", case.text())
            });
        }
    }
}

/// A step of code that ends where its memory ends, and its address.
fn at_an_end(chance: &mut Chance, there: &[u8], in_ram: bool) -> (Case, u32) {
    let record = aim::record(chance, LAYOUT);
    let mut case = step_from(chance, record);
    let (image, end): (&mut Image, u32) = match in_ram {
        true => (&mut case.ram, LAYOUT.ram as u32),
        false => (&mut case.rom, 1 << 24),
    };
    image.put(image.len() - there.len(), there);
    let at = end - there.len() as u32;
    aim::put_long(&mut case.record, COUNTER, at);
    (case, at)
}
