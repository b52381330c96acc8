//! The address that comes with 5 and 6, by rows worked by hand.
//!
//! Where a row does not say otherwise RAM has 100H bytes, 000000H to 0000FFH,
//! and so has ROM, FFFF00H to FFFFFFH.

mod common;

use common::{at, memory, rom_start, step_at, XDE, XHL, XIX, XIY, XSP, XWA};
use second::{run, Machine};

/// A state, RAM and ROM.
type Scene = (Machine, Vec<u8>, Vec<u8>);

/// The code stands 20H bytes into ROM, or into RAM where ROM has no room.
fn scene(ram: usize, rom: usize, code: &[u8], longs: &[(u8, u32)]) -> Scene {
    const PLACE: usize = 0x20;
    let (mut ram, mut rom) = (memory(ram, &[]), memory(rom, &[]));
    let (home, start) = match rom_start(&rom) {
        start if rom.len() >= 2 * PLACE => (&mut rom, start),
        _ => (&mut ram, 0),
    };
    home[PLACE..PLACE + code.len()].copy_from_slice(code);
    (at(start + PLACE as u32, longs), ram, rom)
}

fn stepped(ram: usize, rom: usize, code: &[u8], longs: &[(u8, u32)]) -> (u8, u32) {
    let (mut machine, mut ram, rom) = scene(ram, rom, code, longs);
    step_at(&mut machine, &mut ram, &rom)
}

/// Code with XIX and XSP at an address, and how the step ends.
type Row = (&'static [u8], u32, (u8, u32));

fn check(ram: usize, rom: usize, rows: &[Row]) {
    for &(code, pointer, ended) in rows {
        let longs = [(XIX, pointer), (XSP, pointer)];
        let row = format!("{code:02X?}, {pointer:08X}, RAM {ram}, ROM {rom}");
        assert_eq!(stepped(ram, rom, code, &longs), ended, "{row}");
    }
}

#[test]
fn a_first_byte_in_neither_memory() {
    check(
        0x100,
        0x100,
        &[
            (&[0x84, 0x21], 0x0000_0100, (5, 0x00_0100)), // LD A,(XIX)
            (&[0x94, 0x20], 0x0080_0000, (5, 0x80_0000)), // LD WA,(XIX)
            (&[0xA4, 0x80], 0x00FF_FEFC, (5, 0xFF_FEFC)), // ADD XWA,(XIX)
            (&[0xB4, 0x41], 0x0080_0001, (5, 0x80_0001)), // LD (XIX),A
            (&[0x94, 0x88], 0x00FF_FEFE, (5, 0xFF_FEFE)), // ADD (XIX),WA
            (&[0x84, 0xF9], 0x0000_0101, (5, 0x00_0101)), // CP (XIX),A
            // The highest byte of a pointer is no part of an address.
            (&[0x84, 0x21], 0x5500_0100, (5, 0x00_0100)),
            (&[0xB4, 0x60], 0xFF80_0000, (5, 0x80_0000)),
            // Displaced by 7FH and by -80H.
            (&[0x8C, 0x7F, 0x21], 0x0000_0081, (5, 0x00_0100)),
            (&[0xBC, 0x80, 0x41], 0x0080_0080, (5, 0x80_0000)),
            // The address itself, of two and three bytes.
            (&[0xC1, 0x00, 0x01, 0x21], 0, (5, 0x00_0100)),
            (&[0xF1, 0xFF, 0xFF, 0x41], 0, (5, 0x00_FFFF)),
            (&[0xC2, 0xFF, 0xFE, 0xFF, 0x21], 0, (5, 0xFF_FEFF)),
        ],
    );
}

/// 1, 2 and 3 bytes are inside.
#[test]
fn over_the_end_of_ram() {
    check(
        0x100,
        0x100,
        &[
            (&[0x94, 0x20], 0x0000_00FF, (5, 0x00_0100)), // LD WA,(XIX)
            (&[0xA4, 0x20], 0x0000_00FF, (5, 0x00_0100)), // LD XWA,(XIX)
            (&[0xA4, 0x20], 0x0000_00FE, (5, 0x00_0100)),
            (&[0xA4, 0x20], 0x0000_00FD, (5, 0x00_0100)),
            (&[0xB4, 0x50], 0x0000_00FF, (5, 0x00_0100)), // LD (XIX),WA
            (&[0xB4, 0x60], 0x0000_00FD, (5, 0x00_0100)), // LD (XIX),XWA
            (&[0xA4, 0xA8], 0x0000_00FE, (5, 0x00_0100)), // SUB (XIX),XWA
            (&[0x9C, 0x7F, 0x20], 0x0000_0080, (5, 0x00_0100)), // LD WA,(XIX+7FH)
            (&[0xD0, 0xFF, 0x20], 0, (5, 0x00_0100)),     // LD WA,(FFH)
            (&[0xF0, 0xFD, 0x60], 0, (5, 0x00_0100)),     // LD (FDH),XWA
            (&[0xE1, 0xFE, 0x00, 0x88], 0, (5, 0x00_0100)), // ADD (00FEH),XWA
            (&[0xF2, 0xFF, 0x00, 0x00, 0x50], 0, (5, 0x00_0100)), // LD (0000FFH),WA
            // A push is at XSP less its size, a pop at XSP.
            (&[0x18], 0x0000_0101, (5, 0x00_0100)), // PUSH F
            (&[0x28], 0x0000_0101, (5, 0x00_0100)), // PUSH WA
            (&[0x38], 0x0000_0101, (5, 0x00_0100)), // PUSH XWA
            (&[0x38], 0x0000_0103, (5, 0x00_0100)),
            (&[0x38], 0x0000_0105, (5, 0x00_0101)),
            (&[0x1C, 0x00, 0x00], 0x0000_0102, (5, 0x00_0100)), // CALL 0000H
            (&[0x1D, 0x00, 0x00, 0x00], 0x0000_0103, (5, 0x00_0100)), // CALL 000000H
            (&[0x1E, 0x00, 0x00], 0x0000_0101, (5, 0x00_0100)), // CALR, to the next
            (&[0x19], 0x0000_0100, (5, 0x00_0100)),             // POP F
            (&[0x48], 0x0000_00FF, (5, 0x00_0100)),             // POP WA
            (&[0x58], 0x0000_00FE, (5, 0x00_0100)),             // POP XWA
            (&[0x0E], 0x0000_00FD, (5, 0x00_0100)),             // RET
            (&[0x94, 0x14], 0x0000_00FF, (5, 0x00_0100)),       // CPI WA,(XIX+)
        ],
    );
}

/// From below the first byte is in neither memory; from the start on a store
/// goes to ROM.
#[test]
fn over_the_start_of_rom() {
    check(
        0x100,
        0x100,
        &[
            (&[0x94, 0x20], 0x00FF_FEFF, (5, 0xFF_FEFF)), // LD WA,(XIX)
            (&[0xA4, 0x20], 0x00FF_FEFD, (5, 0xFF_FEFD)), // LD XWA,(XIX)
            (&[0xA4, 0x20], 0x00FF_FEFF, (5, 0xFF_FEFF)),
            (&[0xB4, 0x50], 0x00FF_FEFF, (5, 0xFF_FEFF)), // LD (XIX),WA
            (&[0x28], 0x00FF_FF01, (5, 0xFF_FEFF)),       // PUSH WA
            (&[0x0E], 0x00FF_FEFE, (5, 0xFF_FEFE)),       // RET
            (&[0x94, 0x20], 0x00FF_FF00, (0, 0)),
            (&[0xB4, 0x41], 0x00FF_FF00, (6, 0xFF_FF00)), // LD (XIX),A
            (&[0xB4, 0x50], 0x00FF_FF00, (6, 0xFF_FF00)),
            (&[0xA4, 0x88], 0x00FF_FF01, (6, 0xFF_FF01)), // ADD (XIX),XWA
            (&[0x38], 0x00FF_FF04, (6, 0xFF_FF00)),       // PUSH XWA
            (&[0x1E, 0x00, 0x00], 0x00FF_FF08, (6, 0xFF_FF04)), // CALR, to the next
            (&[0xF2, 0x80, 0xFF, 0xFF, 0x50], 0, (6, 0xFF_FF80)), // LD (FFFF80H),WA
        ],
    );
}

/// The byte after FFFFFFH is 000000H.
#[test]
fn over_the_top() {
    let rows: &[Row] = &[
        (&[0x94, 0x20], 0x00FF_FFFF, (5, 0)), // LD WA,(XIX)
        (&[0xA4, 0x20], 0x00FF_FFFD, (5, 0)), // LD XWA,(XIX)
        (&[0xA4, 0x20], 0x12FF_FFFE, (5, 0)),
        (&[0xA4, 0x20], 0xFFFF_FFFF, (5, 0)),
        (&[0xB4, 0x60], 0x00FF_FFFD, (5, 0)), // LD (XIX),XWA
        (&[0x94, 0x88], 0x00FF_FFFF, (5, 0)), // ADD (XIX),WA
        (&[0x9C, 0xFF, 0x20], 0x0000_0000, (5, 0)), // LD WA,(XIX-1)
        (&[0xD2, 0xFF, 0xFF, 0xFF, 0x20], 0, (5, 0)), // LD WA,(FFFFFFH)
        (&[0x28], 0x0000_0001, (5, 0)),       // PUSH WA
        (&[0x38], 0x0000_0003, (5, 0)),       // PUSH XWA
        (&[0x38], 0x0000_0001, (5, 0)),
        (&[0x1C, 0x00, 0x00], 0x0000_0002, (5, 0)), // CALL 0000H
        (&[0x48], 0xFFFF_FFFF, (5, 0)),             // POP WA
        (&[0x0E], 0x00FF_FFFE, (5, 0)),             // RET
        (&[0x94, 0x17], 0x00FF_FFFF, (5, 0)),       // CPDR WA,(XIX-)
        (&[0x18], 0x0000_0000, (6, 0xFF_FFFF)),     // PUSH F
        (&[0x28], 0x0000_0000, (6, 0xFF_FFFE)),     // PUSH WA
        (&[0x38], 0x0000_0000, (6, 0xFF_FFFC)),     // PUSH XWA
        (&[0x1E, 0x00, 0x00], 0x0000_0000, (6, 0xFF_FFFC)), // CALR, to the next
        (&[0xB4, 0x50], 0x00FF_FFFE, (6, 0xFF_FFFE)), // LD (XIX),WA
    ];
    // Whether RAM is at 000000H or nothing is makes no difference.
    for ram in [0x100, 3, 1, 0] {
        check(ram, 0x100, rows);
    }
}

/// Without ROM the first byte is in neither memory; the next may be in RAM.
#[test]
fn over_the_top_without_rom() {
    check(
        0x100,
        0,
        &[
            (&[0x84, 0x21], 0x00FF_FFFF, (5, 0xFF_FFFF)), // LD A,(XIX)
            (&[0x94, 0x20], 0x00FF_FFFF, (5, 0xFF_FFFF)), // LD WA,(XIX)
            (&[0xA4, 0x20], 0x00FF_FFFD, (5, 0xFF_FFFD)), // LD XWA,(XIX)
            (&[0xB4, 0x60], 0x00FF_FFFE, (5, 0xFF_FFFE)), // LD (XIX),XWA
            (&[0x18], 0x0000_0000, (5, 0xFF_FFFF)),       // PUSH F
            (&[0x28], 0x0000_0001, (5, 0xFF_FFFF)),       // PUSH WA
            (&[0x38], 0x0000_0000, (5, 0xFF_FFFC)),       // PUSH XWA
            (&[0x1E, 0x00, 0x00], 0x0000_0002, (5, 0xFF_FFFE)), // CALR, to the next
            (&[0x48], 0xFFFF_FFFF, (5, 0xFF_FFFF)),       // POP WA
            (&[0xA4, 0x20], 0x0000_00FD, (5, 0x00_0100)), // the end of RAM
        ],
    );
}

#[test]
fn without_ram() {
    check(
        0,
        0x100,
        &[
            (&[0x84, 0x21], 0x0000_0000, (5, 0x00_0000)), // LD A,(XIX)
            (&[0xB4, 0x60], 0x0000_0001, (5, 0x00_0001)), // LD (XIX),XWA
            (&[0xC0, 0x80, 0x21], 0, (5, 0x00_0080)),     // LD A,(80H)
            (&[0x28], 0x0000_0100, (5, 0x00_00FE)),       // PUSH WA
            (&[0x48], 0x0000_0000, (5, 0x00_0000)),       // POP WA
            (&[0x0E], 0x00FF_FEFD, (5, 0xFF_FEFD)),       // RET
            (&[0x38], 0x0000_0000, (6, 0xFF_FFFC)),       // PUSH XWA
        ],
    );
}

/// Nothing is at the counter, so nothing is looked for anywhere else.
#[test]
fn without_either_memory() {
    for pointer in [0, 0x80_0000, 0xFF_FFFF] {
        let mut machine = at(pointer, &[(XIX, pointer), (XSP, pointer)]);
        assert_eq!(step_at(&mut machine, &mut [], &[]), (3, 0));
        assert_eq!(run(&mut machine, &mut [], &[], 9), (0, 3, 0));
        assert_eq!(run(&mut machine, &mut [], &[], 0), (0, 0, 0));
    }
}

#[test]
fn over_65536_bytes_of_ram() {
    check(
        0x1_0000,
        0x100,
        &[
            (&[0x94, 0x20], 0x0000_FFFF, (5, 0x01_0000)), // LD WA,(XIX)
            (&[0xA4, 0x20], 0x0000_FFFD, (5, 0x01_0000)), // LD XWA,(XIX)
            (&[0xA4, 0x20], 0x0000_FFFE, (5, 0x01_0000)),
            (&[0xA4, 0x20], 0x7700_FFFF, (5, 0x01_0000)),
            (&[0x84, 0x21], 0x0001_0000, (5, 0x01_0000)), // LD A,(XIX)
            (&[0xB4, 0x60], 0x0001_0001, (5, 0x01_0001)), // LD (XIX),XWA
            (&[0xD1, 0xFF, 0xFF, 0x20], 0, (5, 0x01_0000)), // LD WA,(FFFFH)
            (&[0xF1, 0xFD, 0xFF, 0x60], 0, (5, 0x01_0000)), // LD (FFFDH),XWA
            (&[0x38], 0x0001_0002, (5, 0x01_0000)),       // PUSH XWA
            (&[0x0E], 0x0000_FFFF, (5, 0x01_0000)),       // RET
            (&[0xA4, 0x20], 0x0000_FFFC, (0, 0)),
        ],
    );
}

/// The source is looked for first, then the target, then whether that is ROM:
/// words, XDE from XHL and XIX from XIY.
#[test]
fn copies() {
    let rows = [
        (0x00_00FF, 0x00_0040, (5, 0x00_0100)),
        (0x80_0000, 0x00_0040, (5, 0x80_0000)),
        (0xFF_FFFF, 0x00_0040, (5, 0x00_0000)),
        (0x80_0000, 0x70_0000, (5, 0x80_0000)),
        (0x00_00FF, 0x70_0000, (5, 0x00_0100)),
        (0xFF_FFFF, 0x70_0000, (5, 0x00_0000)),
        (0x80_0000, 0xFF_FF80, (5, 0x80_0000)),
        (0x00_00FF, 0xFF_FF80, (5, 0x00_0100)),
        (0xFF_FFFF, 0x00_00FF, (5, 0x00_0000)),
        (0x00_00FF, 0xFF_FFFF, (5, 0x00_0100)),
        (0x00_0040, 0x70_0000, (5, 0x70_0000)),
        (0x00_0040, 0x00_00FF, (5, 0x00_0100)),
        (0x00_0040, 0xFF_FFFF, (5, 0x00_0000)),
        (0x00_0040, 0xFF_FEFF, (5, 0xFF_FEFF)),
        (0xFF_FFFE, 0x00_00FF, (5, 0x00_0100)),
        (0x00_0040, 0xFF_FF80, (6, 0xFF_FF80)),
        (0xFF_FF00, 0xFF_FFFE, (6, 0xFF_FFFE)),
        (0x00_0040, 0x00_00FE, (0, 0)),
    ];
    for (source, target, ended) in rows {
        for kind in 0x10..=0x13 {
            for (first, to, from) in [(0x93, XDE, XHL), (0x95, XIX, XIY)] {
                let longs = [(from, source), (to, target)];
                let row = format!("{first:02X} {kind:02X}, {source:06X} to {target:06X}");
                let step = stepped(0x100, 0x100, &[first, kind], &longs);
                assert_eq!(step, ended, "{row}");
            }
        }
    }
}

/// Code, and how a run ends: the steps done, the number and the address.
type RunRow = (&'static [u8], (u32, u8, u32));

/// RAM holds zeros, which WA is not; BC 0 is more rounds than there is room
/// for.
#[test]
fn runs() {
    let longs = [(XHL, 0xF0), (XDE, 0x40), (XIX, 0xF1), (XSP, 9), (XWA, 1)];
    let rows: &[RunRow] = &[
        (&[0x93, 0x11], (8, 5, 0x00_0100)),    // LDIR, words from F0H up
        (&[0x83, 0x13], (0x41, 6, 0xFF_FFFF)), // LDDR, bytes to 40H and down
        (&[0x94, 0x15], (7, 5, 0x00_0100)),    // CPIR, words from F1H up
        (&[0x94, 0x17], (0x79, 5, 0x00_0000)), // CPDR, words from F1H down
        (&[0x28, 0x68, 0xFD], (8, 5, 0x00_0000)), // PUSH WA at 7, 5, 3 and 1, and JR
        (&[0x1E, 0xFD, 0xFF], (2, 5, 0x00_0000)), // CALR itself, pushed at 5 and 1
        (&[0x00, 0x00, 0xD0, 0xFF, 0x20], (2, 5, 0x00_0100)), // LD WA,(FFH)
        (&[0x00, 0xF2, 0x80, 0xFF, 0xFF, 0x41], (1, 6, 0xFF_FF80)), // LD (FFFF80H),A
    ];
    for &(code, ended @ (done, number, at)) in rows {
        let row = format!("{code:02X?}");
        let (mut machine, mut ram, rom) = scene(0x100, 0x100, code, &longs);
        assert_eq!(run(&mut machine, &mut ram, &rom, 1_000), ended, "{row}");
        // Asked again it says the same, as the step itself does.
        let again = run(&mut machine, &mut ram, &rom, 1_000);
        assert_eq!(again, (0, number, at), "{row}");
        let refused = step_at(&mut machine, &mut ram, &rom);
        assert_eq!(refused, (number, at), "{row}");
        // The steps before it have nothing to say.
        let (mut machine, mut ram, rom) = scene(0x100, 0x100, code, &longs);
        let before = run(&mut machine, &mut ram, &rom, done);
        assert_eq!(before, (done, 0, 0), "{row}");
    }
}
