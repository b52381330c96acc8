//! Wrong answers, to see that the comparison would show them: each is put into a
//! copy of what the library leaves, or of the table of rows, and held against the
//! same answers of the witness.

use crate::desk::Done;
use crate::operands::{compare_pointer, division, modulo, register_form};
use crate::rows::{self, Apart, Says, ROWS};
use crate::seen::{value, Seen, H, S, V, Z};
use draw::aim::{BC, XSP};
use second::record::F;

pub struct Slip {
    pub what: String,
    wrong: Wrong,
}

enum Wrong {
    /// What the library leaves.
    Answer(Change),
    /// The table, which lacks a row.
    Without(usize),
    /// The table, with another row in this one's place.
    Row(usize, Says),
}

/// Changes what the library leaves after a step.
type Change = fn(&Done, &mut Seen);

/// Slips of a library. The first is the one that left a pointer one entry short.
const ANSWERS: [(&str, Change); 16] = [
    (
        "a compare leaves its pointer at the match",
        pointer_at_match,
    ),
    (
        "LDI tells by V whether BC was 0 before the round",
        v_before_round,
    ),
    ("INC of a word sets Z", word_inc_sets_z),
    ("ADC leaves the carry out of H", half_carry_without_carry),
    ("SRA of a byte fills with 0", sra_fills_with_zero),
    ("JR LE does not look at Z", le_without_z),
    ("EXTS extends with zeros", exts_with_zeros),
    ("PUSH of a long moves XSP by two", push_by_two),
    (
        "a signed remainder has the divisor's sign",
        remainder_of_divisor,
    ),
    ("MINC goes on at the end of its table", minc_goes_on),
    (
        "a code D0 to DF names a register of the bank above",
        dashed_bank_above,
    ),
    ("a request sets the mask to its level", mask_of_level),
    ("DIV by 0 clears its register", zero_divisor_clears),
    ("MDEC goes on at the end of its table", mdec_goes_on),
    ("the counter is one short after RET", ret_one_short),
    ("a call pushes its own address", call_pushes_itself),
];

/// Rows with one thing changed, by the codes of the row.
const OTHER_ROWS: [(&str, &str, Says); 3] = [
    ("POP F", "only bit 5 as it was popped", one_bit_as_popped),
    (
        "DIV, DIVS by 0",
        "the high half is the old low half for DIVS too",
        low_half_always,
    ),
    (
        "MDEC",
        "turns by the lowest bit alone",
        turned_by_lowest_bit,
    ),
];

/// Every slip that is tried: those of a library, the table with each row left out,
/// and rows that are changed.
pub fn slips() -> Vec<Slip> {
    let answers = ANSWERS.iter().map(|&(what, change)| Slip {
        what: what.to_string(),
        wrong: Wrong::Answer(change),
    });
    let without = ROWS.iter().enumerate().map(|(row, left_out)| Slip {
        what: format!("no row for {}", left_out.code),
        wrong: Wrong::Without(row),
    });
    let changed = OTHER_ROWS.iter().map(|&(code, what, says)| Slip {
        what: format!("the row for {code}: {what}"),
        wrong: Wrong::Row(rows::place_of(code), says),
    });
    answers.chain(without).chain(changed).collect()
}

impl Slip {
    /// What the witness would have to have, if that is another thing.
    pub fn expect(&self, done: &Done, ours: &Seen, right: &Seen) -> Option<Seen> {
        let mut ours = ours.clone();
        if let Wrong::Answer(change) = self.wrong {
            change(done, &mut ours);
        }
        let mut wrong = ours.clone();
        for (number, row) in ROWS.iter().enumerate() {
            let says = match self.wrong {
                Wrong::Without(out) if out == number => continue,
                Wrong::Row(place, says) if place == number => says,
                _ => row.says,
            };
            says(done, &ours).turn_over(done, &mut wrong);
        }
        (wrong != *right).then_some(wrong)
    }
}

fn pointer_at_match(done: &Done, seen: &mut Seen) {
    let equal = seen.sr & Z != 0;
    if let Some(pointer) = compare_pointer(done).filter(|_| equal) {
        let place = done.place_of_long(pointer);
        seen.registers[place.clone()].copy_from_slice(&done.before[place]);
    }
}

fn v_before_round(done: &Done, seen: &mut Seen) {
    if matches!(done.code, [0x83 | 0x85 | 0x93 | 0x95, 0x10..=0x13]) {
        let count = done.long(BC) & 0xFFFF;
        seen.set_flag(V, count != 0);
    }
}

fn word_inc_sets_z(done: &Done, seen: &mut Seen) {
    if let Some((size, place, [0x60..=0x67])) = register_form(done) {
        if size.bytes == 2 {
            seen.set_flag(Z, value(&seen.registers, place) == 0);
        }
    }
}

fn half_carry_without_carry(done: &Done, seen: &mut Seen) {
    if let Some((size, r, &[second @ 0x90..=0x97])) = register_form(done) {
        if size.bytes == 1 {
            let beside = size.plain(second & 7, done.bank());
            let low = |place| value(done.before, place) & 15;
            seen.set_flag(H, low(r) + low(beside) > 15);
        }
    }
}

fn sra_fills_with_zero(done: &Done, seen: &mut Seen) {
    if let Some((size, place, [0xED, _])) = register_form(done) {
        if size.bytes == 1 {
            seen.registers[place.start] &= 0x7F;
        }
    }
}

fn le_without_z(done: &Done, seen: &mut Seen) {
    let flags = u32::from(done.before[F]);
    let less = (flags & S != 0) != (flags & V != 0);
    if done.code[0] == 0x62 && flags & Z != 0 && !less {
        seen.counter = done.next() & 0xFF_FFFF;
    }
}

fn exts_with_zeros(done: &Done, seen: &mut Seen) {
    if let Some((size, place, [0x13])) = register_form(done) {
        seen.registers[place.start + size.bytes / 2..place.end].fill(0);
    }
}

fn push_by_two(done: &Done, seen: &mut Seen) {
    if matches!(done.code, [0x38..=0x3E]) {
        let place = done.place_of_long(XSP);
        let moved = done.long(XSP).wrapping_sub(2);
        seen.registers[place].copy_from_slice(&moved.to_le_bytes());
    }
}

fn remainder_of_divisor(done: &Done, seen: &mut Seen) {
    let Some(division) = division(done).filter(|one| one.scale.signed && one.fits()) else {
        return;
    };
    let (dividend, divisor) = division.numbers();
    let (quotient, remainder) = (dividend / divisor, dividend % divisor);
    if remainder * divisor < 0 {
        // the right one out, the wrong one in
        for remainder in [remainder, remainder + divisor] {
            division.leaves(quotient, remainder).turn_over(done, seen);
        }
    }
}

fn zero_divisor_clears(done: &Done, seen: &mut Seen) {
    if let Some(division) = division(done).filter(|one| one.exact().is_none()) {
        division.leaves(0, 0).turn_over(done, seen);
    }
}

fn goes_on(done: &Done, seen: &mut Seen, up: bool) {
    if let Some(modulo) = modulo(done).filter(|modulo| modulo.goes_up() == up) {
        let on = i32::from(modulo.before(done)) + modulo.step.by;
        seen.registers[modulo.place].copy_from_slice(&(on as u16).to_le_bytes());
    }
}

fn minc_goes_on(done: &Done, seen: &mut Seen) {
    goes_on(done, seen, true);
}

fn mdec_goes_on(done: &Done, seen: &mut Seen) {
    goes_on(done, seen, false);
}

fn ret_one_short(done: &Done, seen: &mut Seen) {
    if done.code == [0x0E] {
        seen.counter = seen.counter.wrapping_sub(1) & 0xFF_FFFF;
    }
}

fn call_pushes_itself(done: &Done, seen: &mut Seen) {
    if matches!(done.code[0], 0x1C..=0x1E) {
        let length = done.code.len() as u8;
        let low = done.long(XSP).wrapping_sub(4) & 0xFF_FFFF;
        if let Some(byte) = seen.memory.get_mut(&low) {
            *byte = byte.wrapping_sub(length);
        }
    }
}

/// Of LD R,r alone.
fn dashed_bank_above(done: &Done, seen: &mut Seen) {
    let Some((size, _, &[second @ 0x88..=0x8F])) = register_form(done) else {
        return;
    };
    let code = done.code[1];
    if done.code[0] == size.any && code >> 4 == 0xD {
        let above = 16 * ((done.bank() + 1) % 4) + code % 16;
        let from = size.named(above, done.bank()).expect("a register");
        let to = size.plain(second & 7, done.bank());
        seen.registers[to].copy_from_slice(&done.before[from]);
    }
}

fn mask_of_level(done: &Done, seen: &mut Seen) {
    let taken = done.asked.filter(|asked| asked.taken && asked.level < 7);
    if let Some(asked) = taken.filter(|_| done.code == [0x00]) {
        seen.sr = seen.sr & !0x7000 | asked.level << 12;
    }
}

fn one_bit_as_popped(done: &Done, _: &Seen) -> Apart {
    let popped = done.code == [0x19];
    Apart {
        sr: if popped {
            done.on_stack(0, 1) & 1 << 5
        } else {
            0
        },
        ..Apart::default()
    }
}

fn low_half_always(done: &Done, _: &Seen) -> Apart {
    let by_zero = division(done).filter(|one| one.exact().is_none());
    by_zero.map_or_else(Apart::default, |division| {
        let (dividend, _) = division.numbers();
        division.leaves(!i64::from(division.high()), dividend)
    })
}

fn turned_by_lowest_bit(done: &Done, _: &Seen) -> Apart {
    let mdec = modulo(done).filter(|modulo| !modulo.goes_up());
    mdec.map_or_else(Apart::default, |mdec| {
        let lowest = mdec.last & mdec.last.wrapping_neg();
        mdec.turned_by(done, lowest)
    })
}
