//! The listed codes, against what the interpreter takes and refuses, byte by
//! byte.

mod common;

use common::{rom_start, step_once};
use forms::{Form, Slot};
use second::{show, Machine};

/// Shows and steps code that ends where its memory ends, in RAM and in ROM.
fn judge(code: &[u8], wanted: u8) {
    let (bytes, number) = show(code, &[], 0);
    assert_eq!(number, wanted, "{code:02X?} in RAM");
    let whole = if wanted == 0 { code.len() } else { 0 };
    assert_eq!(bytes.len(), whole, "{code:02X?}");
    if wanted == 0 {
        assert_eq!(bytes.as_ptr(), code.as_ptr(), "shown as a part of RAM");
    }

    let start = rom_start(code);
    let (bytes, number) = show(&[], code, start);
    assert_eq!(number, wanted, "{code:02X?} in ROM");
    assert_eq!(bytes.len(), whole, "{code:02X?}");
    assert_eq!(bytes.as_ptr(), code.as_ptr(), "shown as a part of ROM");

    if wanted != 0 {
        let mut machine = Machine::zero();
        let mut ram = code.to_vec();
        assert_eq!(step_once(&mut machine, &mut ram, &[]), wanted);
        machine.counter = start;
        assert_eq!(step_once(&mut machine, &mut [], code), wanted);
    }
}

/// Goes through every beginning of a listed form, one byte longer each time.
/// Where any byte is as good as another, three stand for all.
fn walk(code: &mut Vec<u8>, forms: &[&Form], whole: &mut usize) {
    let place = code.len();
    let told = |form: &&Form| matches!(form.slots[place], Slot::One(_));
    let bytes: Vec<u8> = if forms.iter().any(told) {
        (0..=255).collect()
    } else {
        vec![0x00, 0x5A, 0xFF]
    };
    for byte in bytes {
        code.push(byte);
        let fits = |form: &&Form| form.slots[place].takes(byte);
        let fitting: Vec<&Form> = forms.iter().copied().filter(fits).collect();
        let ended = fitting.iter().filter(|form| form.slots.len() == code.len());
        match (fitting.len(), ended.count()) {
            (0, _) => judge(code, 4),
            (_, 0) => {
                judge(code, 3);
                walk(code, &fitting, whole);
            }
            (all, done) => {
                assert_eq!(all, done, "{code:02X?} is whole and a beginning at once");
                judge(code, 0);
                *whole += 1;
            }
        }
        code.pop();
    }
}

#[test]
fn every_code_is_taken_or_refused_at_the_right_byte() {
    let forms = forms::listed();
    let forms: Vec<&Form> = forms.iter().collect();
    let mut whole = 0;
    walk(&mut Vec::new(), &forms, &mut whole);
    assert!(whole > 10_000, "only {whole} whole codes were met");
}

#[test]
fn no_form_is_longer_than_seven_bytes() {
    let longest = forms::listed().iter().map(|form| form.slots.len()).max();
    assert_eq!(longest, Some(7));
}

/// No bytes at all: nothing has been ruled out and the next is not there.
#[test]
fn no_byte_is_number_3() {
    for at in [0, 1, 0x8000, 0xFF_FFFF] {
        assert_eq!(show(&[], &[], at), (&[][..], 3));
        let mut machine = Machine::zero();
        machine.counter = at;
        assert_eq!(step_once(&mut machine, &mut [], &[]), 3);
    }
}
