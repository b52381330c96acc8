//! Each number of refusal, given in its case and in its turn.

mod common;

use common::{at, memory, rom_start, step_once, A, BC, XDE, XHL, XIX, XSP, XWA};
use second::{reset, run, show, Machine, Width, MOST_BYTES, MOST_STEPS};

const TOO_LONG: usize = MOST_BYTES + 1;

/// Every way of breaking one rule of a valid state.
fn invalid_states() -> Vec<Machine> {
    let mut states = Vec::new();
    let mut add = |change: &dyn Fn(&mut Machine)| {
        let mut machine = Machine::zero();
        change(&mut machine);
        assert!(!machine.valid());
        states.push(machine);
    };
    add(&|m| m.counter = 0x100_0000);
    add(&|m| m.counter = u32::MAX);
    add(&|m| m.bank = 4);
    add(&|m| m.bank = 255);
    add(&|m| m.level = 8);
    add(&|m| m.level = 255);
    add(&|m| m.f = 0x08);
    add(&|m| m.f = 0x20);
    add(&|m| m.f = 0xFF);
    add(&|m| m.f_prime = 0x08);
    add(&|m| m.f_prime = 0x20);
    add(&|m| m.f_prime = 0xFF);
    add(&|m| (m.f, m.marks.h) = (0x10, true));
    add(&|m| (m.f, m.marks.v) = (0x04, true));
    add(&|m| (m.f_prime, m.marks_prime.h) = (0x10, true));
    add(&|m| (m.f_prime, m.marks_prime.v) = (0x04, true));
    states
}

#[test]
fn number_7_first() {
    let invalid = invalid_states().remove(0);
    for machine in [Machine::zero(), invalid] {
        for length in [16, TOO_LONG] {
            let mut after = machine.clone();
            let mut ram = vec![0; length];
            let ended = run(&mut after, &mut ram, &[], MOST_STEPS + 1);
            assert_eq!(ended, (0, 7, 0));
            assert_eq!(run(&mut after, &mut ram, &[], u32::MAX), (0, 7, 0));
            assert_eq!(after, machine);
            assert!(ram.iter().all(|&byte| byte == 0));
        }
    }
}

#[test]
fn exactly_a_million_steps_may_be_asked_for() {
    let mut machine = Machine::zero();
    // JR to itself.
    let mut ram = [0x68, 0xFE];
    let ended = run(&mut machine, &mut ram, &[], MOST_STEPS);
    assert_eq!(ended, (MOST_STEPS, 0, 0));
    assert_eq!(machine, Machine::zero());
}

#[test]
fn number_1_before_2() {
    let long = vec![0; TOO_LONG];
    for machine in [Machine::zero(), invalid_states().remove(0)] {
        for (ram, rom) in [(&long[..], &[][..]), (&[], &long), (&long, &long)] {
            let mut ram = ram.to_vec();
            let mut after = machine.clone();
            assert_eq!(step_once(&mut after, &mut ram, rom), 1);
            assert_eq!(run(&mut after, &mut ram, rom, 0), (0, 1, 0));
            assert_eq!(run(&mut after, &mut ram, rom, 5), (0, 1, 0));
            assert_eq!(after, machine);
            assert_eq!(show(&ram, rom, 0), (&[][..], 1));
            assert_eq!(show(&ram, rom, u32::MAX), (&[][..], 1));
            assert_eq!(reset(&ram, rom), (Machine::zero(), 1));
        }
    }
}

#[test]
fn number_2_before_3_and_4() {
    for machine in invalid_states() {
        // Nothing at the counter; a code that is not listed; a good one.
        for code in [&[][..], &[0x01], &[0x00]] {
            let mut ram = code.to_vec();
            let mut after = machine.clone();
            assert_eq!(step_once(&mut after, &mut ram, &[]), 2);
            assert_eq!(run(&mut after, &mut ram, &[], 0), (0, 2, 0));
            assert_eq!(run(&mut after, &mut ram, &[], 9), (0, 2, 0));
            assert_eq!(after, machine);
        }
    }
    for at in [0x100_0000, 0x100_0001, u32::MAX] {
        assert_eq!(show(&[0x00], &[0x00], at), (&[][..], 2));
    }
}

#[test]
fn numbers_3_and_4_at_the_byte_that_forces_them() {
    let cases: &[(&[u8], u8)] = &[
        (&[], 3),
        (&[0x01], 4),
        (&[0x0F], 4),
        (&[0x14], 4),
        (&[0x1F], 4),
        (&[0x2F], 4),
        (&[0x3F], 4),
        (&[0x4F], 4),
        (&[0x50], 4),
        (&[0x5F], 4),
        (&[0xC3], 4),
        (&[0xC6], 4),
        (&[0xF7], 4),
        (&[0xF8], 4),
        (&[0xFF], 4),
        (&[0x17], 3),
        (&[0x17, 0x08], 4),
        (&[0x17, 0xFF], 4),
        (&[0x04], 4),
        (&[0x05], 4),
        (&[0x06], 3),
        (&[0x06, 0x08], 4),
        (&[0x06, 0xFF], 4),
        (&[0x40, 0x00, 0x00, 0x00], 3),
        (&[0xC9], 3),
        (&[0xC9, 0x12], 4),
        (&[0xC9, 0x13], 4),
        (&[0xC9, 0xEC], 3),
        (&[0xC9, 0xEC, 0x10], 4),
        (&[0xC9, 0xE8], 4),
        (&[0xE8, 0x03, 0x00, 0x00, 0x00], 3),
        (&[0x80, 0x14], 4),
        (&[0x81, 0x15], 4),
        (&[0x82, 0x10], 4),
        (&[0x84, 0x10], 4),
        (&[0xA3, 0x10], 4),
        (&[0xA4, 0x14], 4),
        (&[0x8B, 0x00], 3),
        (&[0x8B, 0x00, 0x10], 4),
        (&[0xB0, 0x20], 4),
        (&[0xB0, 0x70], 4),
        (&[0xC2, 0x00, 0x00, 0x00], 3),
        (&[0xC2, 0x00, 0x00, 0x00, 0x00], 4),
    ];
    for &(code, number) in cases {
        let mut ram = code.to_vec();
        let after = step_once(&mut Machine::zero(), &mut ram, &[]);
        assert_eq!(after, number, "{code:02X?}");
    }
}

/// The code is judged before anything it would read or store is looked for.
#[test]
fn numbers_3_and_4_before_5_and_6() {
    // (XIX) is missing, then ROM.
    for pointer in [0x80_0000, 0xFF_FFFF] {
        let mut machine = at(0, &[(XIX, pointer)]);
        assert_eq!(step_once(&mut machine, &mut [0x84], &[0x00]), 3);
        assert_eq!(step_once(&mut machine, &mut [0x84, 0x00], &[0x00]), 4);
        assert_eq!(step_once(&mut machine, &mut [0xB4], &[0x00]), 3);
        assert_eq!(step_once(&mut machine, &mut [0xB4, 0x00], &[0x00]), 4);
    }
}

/// Every instruction that only reads: 5 where the operand is missing, done
/// where it is in ROM.
#[test]
fn number_5_for_a_read() {
    let reading: &[&[u8]] = &[
        &[0x84, 0x21],       // LD A,(XIX)
        &[0x84, 0x81],       // ADD A,(XIX)
        &[0x94, 0x20],       // LD WA,(XIX)
        &[0xA4, 0x20],       // LD XWA,(XIX)
        &[0x84, 0xF1],       // CP A,(XIX)
        &[0x84, 0xF9],       // CP (XIX),A stores nothing
        &[0x94, 0xF8],       // CP (XIX),WA
        &[0xA4, 0xF8],       // CP (XIX),XWA
        &[0x8C, 0x00, 0x21], // LD A,(XIX+0)
        &[0x84, 0x14],       // CPI A,(XIX+)
        &[0x94, 0x17],       // CPDR WA,(XIX-)
        &[0xEF, 0x9C, 0x0E], // LD XSP,XIX; RET
        &[0xEF, 0x9C, 0x19], // LD XSP,XIX; POP F
        &[0xEF, 0x9C, 0x48], // LD XSP,XIX; POP WA
        &[0xEF, 0x9C, 0x58], // LD XSP,XIX; POP XWA
        &[0xEF, 0x9C, 0x03], // LD XSP,XIX; POP SR
        &[0xEF, 0x9C, 0x07], // LD XSP,XIX; RETI
    ];
    for &code in reading {
        let rom = [0; 8];
        for (pointer, number) in [(0x80_0000, 5), (rom_start(&rom), 0)] {
            let mut ram = code.to_vec();
            let mut machine = at(0, &[(XIX, pointer)]);
            if code[0] == 0xEF {
                assert_eq!(step_once(&mut machine, &mut ram, &rom), 0);
            }
            let after = step_once(&mut machine, &mut ram, &rom);
            assert_eq!(after, number, "{code:02X?} at {pointer:06X}");
        }
    }
}

/// Every instruction that stores: 5 where there is nothing, 6 where it is
/// ROM, for the stack too, and XSP stays as it was.
#[test]
fn numbers_5_and_6_for_a_store() {
    let storing: &[&[u8]] = &[
        &[0xB4, 0x41],             // LD (XIX),A
        &[0xB4, 0x50],             // LD (XIX),WA
        &[0xB4, 0x60],             // LD (XIX),XWA
        &[0xBC, 0x01, 0x41],       // LD (XIX+1),A
        &[0x84, 0x89],             // ADD (XIX),A
        &[0x94, 0x98],             // ADC (XIX),WA
        &[0xA4, 0xA8],             // SUB (XIX),XWA
        &[0x84, 0xB9],             // SBC (XIX),A
        &[0x84, 0xC9],             // AND (XIX),A
        &[0x84, 0xD9],             // XOR (XIX),A
        &[0x84, 0xE9],             // OR (XIX),A
        &[0x18],                   // PUSH F
        &[0x28],                   // PUSH WA
        &[0x38],                   // PUSH XWA
        &[0x02],                   // PUSH SR
        &[0x1C, 0x00, 0x00],       // CALL 0
        &[0x1D, 0x00, 0x00, 0x00], // CALL 0
        &[0x1E, 0xFD, 0xFF],       // CALR itself
    ];
    for &code in storing {
        let rom = [0; 16];
        for (pointer, number) in [(0x80_0000, 5), (rom_start(&rom) + 8, 6)] {
            let mut ram = code.to_vec();
            let mut machine = at(0, &[(XIX, pointer), (XSP, pointer)]);
            let after = step_once(&mut machine, &mut ram, &rom);
            assert_eq!(after, number, "{code:02X?} at {pointer:06X}");
        }
    }
}

/// A copy reads first: 5 for the source, then 5 for the target, then 6.
#[test]
fn a_copy_reads_before_it_stores() {
    let rom = [0; 8];
    let (in_ram, in_rom, nowhere) = (0x10, rom_start(&rom), 0x80_0000);
    let cases = [
        (in_ram, in_ram, 0),
        (in_rom, in_ram, 0),
        (nowhere, in_ram, 5),
        (nowhere, nowhere, 5),
        (nowhere, in_rom, 5),
        (in_ram, nowhere, 5),
        (in_rom, nowhere, 5),
        (in_ram, in_rom, 6),
        (in_rom, in_rom, 6),
    ];
    for (source, target, number) in cases {
        for prefix in [0x83, 0x93] {
            for kind in 0x10..=0x13 {
                let mut ram = memory(0x20, &[prefix, kind]);
                let mut machine = at(0, &[(XHL, source), (XDE, target)]);
                let after = step_once(&mut machine, &mut ram, &rom);
                assert_eq!(after, number, "from {source:06X} to {target:06X}");
            }
        }
    }
}

/// Flags, XSP and registers all stay when the last check refuses.
#[test]
fn nothing_is_half_done() {
    let rom = [0x55; 8];
    let mut machine = at(0, &[(XIX, rom_start(&rom)), (XWA, 0xFFFF_FFFF)]);
    machine.f = 0xD7;
    machine.set(Width::Word, BC, 5);
    let mut ram = [0x84, 0x89]; // ADD (XIX),A
    assert_eq!(step_once(&mut machine, &mut ram, &rom), 6);
    assert_eq!(machine.f, 0xD7);
    assert_eq!(machine.get(Width::Byte, A), 0xFF);
}

#[test]
fn a_run_stops_before_the_refused_step() {
    let code = [0x21, 0x05, 0x61, 0x00, 0x01]; // LD A,5; JR LT,..; not listed
    let mut ram = code.to_vec();
    let mut machine = Machine::zero();
    assert_eq!(run(&mut machine, &mut ram, &[], 100), (2, 4, 0));
    assert_eq!(machine.counter, 4);
    assert_eq!(machine.get(Width::Byte, A), 5);
    assert_eq!(run(&mut machine, &mut ram, &[], 100), (0, 4, 0));
    assert_eq!(run(&mut machine, &mut ram, &[], 0), (0, 0, 0));

    let mut machine = Machine::zero();
    assert_eq!(run(&mut machine, &mut ram, &[], 1), (1, 0, 0));
    assert_eq!(machine.counter, 2);
}

/// A jump or call to where nothing is is done; the next step is refused.
#[test]
fn a_jump_to_nowhere_is_done() {
    let jumps: &[&[u8]] = &[
        &[0x1A, 0x00, 0x80],
        &[0x1B, 0x00, 0x00, 0x80],
        &[0x1C, 0x00, 0x80],
        &[0x1D, 0x00, 0x00, 0x80],
        &[0x1E, 0x00, 0x70],
        &[0x68, 0x80],
        &[0x78, 0x00, 0x80],
    ];
    for &code in jumps {
        let mut ram = memory(0x40, code);
        let mut machine = at(0, &[(XSP, 0x40)]);
        assert_eq!(
            run(&mut machine, &mut ram, &[], 2),
            (1, 3, 0),
            "{code:02X?}"
        );
    }
}
