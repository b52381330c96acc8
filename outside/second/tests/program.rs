//! The line that document 01's program prints.

mod common;

use common::memory;
use second::line;

/// 256 bytes with a reset vector and some code at an offset.
fn image(vector: [u8; 4], offset: usize, code: &[u8]) -> Vec<u8> {
    let mut bytes = memory(256, &vector);
    bytes[offset..offset + code.len()].copy_from_slice(code);
    bytes
}

#[test]
fn the_example_byte_for_byte() {
    let image = image(
        [0x10, 0xFF, 0xFF, 0x00],
        16,
        &[0x21, 0x05, 0xC9, 0xC8, 0x03, 0x01],
    );
    let wanted = "2 4 FFFF15 F800 00000008 00000000 00000000 00000000 \
                  00000000 00000000 00000000 00000100\n";
    assert_eq!(line(&image), wanted);
    assert_eq!(line(&image).split(' ').count(), 12);
}

#[test]
fn too_short_an_image() {
    for length in [0, 1, 4, 255] {
        assert_eq!(line(&vec![0; length]), "0 5\n", "{length} bytes");
    }
}

#[test]
fn too_long_an_image() {
    for length in [32_769, 65_536, 65_537, 100_000] {
        assert_eq!(line(&vec![0; length]), "0 1\n", "{length} bytes");
    }
}

/// The counter is 0, RAM is zero, so it is all NOP.
#[test]
fn a_thousand_steps_and_no_more() {
    let zeros = "00000000 00000000 00000000 00000000 00000000 00000000 00000000";
    let wanted = format!("1000 0 0003E8 F800 {zeros} 00000100\n");
    assert_eq!(line(&[0; 256]), wanted);
    assert_eq!(line(&vec![0; 32_768]), wanted);
}

/// The vector is 256 bytes below the end, its fourth byte plays no part, and
/// the registers printed are the current bank's.
#[test]
fn a_longer_image_in_another_bank() {
    let mut bytes = vec![0; 32_768];
    bytes[32_512..32_516].copy_from_slice(&[0x00, 0x80, 0xFF, 0xEE]);
    // At FF8000H: LDF 1; LD XWA,FEDCBA98H; LD XSP,4; CALL FFH; there: 00s.
    let code = [
        0x17, 0x01, 0x40, 0x98, 0xBA, 0xDC, 0xFE, 0x47, 4, 0, 0, 0, 0x1C, 0xFF, 0x00,
    ];
    bytes[..15].copy_from_slice(&code);
    let wanted = "1000 0 0004E3 F900 FEDCBA98 00000000 00000000 00000000 \
                  00000000 00000000 00000000 00000000\n";
    assert_eq!(line(&bytes), wanted);
}

/// A refusal of the first step still prints all twelve fields.
#[test]
fn nothing_where_the_vector_points() {
    let wanted = "0 3 123456 F800 00000000 00000000 00000000 00000000 \
                  00000000 00000000 00000000 00000100\n";
    assert_eq!(line(&image([0x56, 0x34, 0x12, 0x00], 16, &[])), wanted);
}

/// The four kilobytes of RAM end at 1000H.
#[test]
fn ram_has_4096_bytes() {
    // LD (0FFFH),A is done; LD (1000H),A is not.
    let code = [0xF1, 0xFF, 0x0F, 0x41, 0xF1, 0x00, 0x10, 0x41];
    let printed = line(&image([0x10, 0xFF, 0xFF, 0x00], 16, &code));
    assert!(printed.starts_with("1 5 FFFF14 F800 "), "{printed}");
}

/// A store to ROM, and flags in SR.
#[test]
fn a_store_to_rom() {
    // SUB A,1; LD (FFFF00H),A.
    let code = [0xC9, 0xCA, 0x01, 0xF2, 0x00, 0xFF, 0xFF, 0x41];
    let printed = line(&image([0x10, 0xFF, 0xFF, 0x00], 16, &code));
    assert!(
        printed.starts_with("1 6 FFFF13 F893 000000FF "),
        "{printed}"
    );
}
