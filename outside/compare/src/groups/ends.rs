//! Operands, stack and code at the ends of the memories and across them.

use super::Bench;
use draw::aim::{self, Layout, XSP};
use draw::case::{Call, Case};
use draw::image::Image;
use second::record::COUNTER;

const LAYOUTS: [Layout; 6] = [
    Layout { ram: 0, rom: 16 },
    Layout { ram: 1, rom: 17 },
    Layout { ram: 3, rom: 255 },
    Layout { ram: 16, rom: 256 },
    Layout { ram: 255, rom: 16 },
    Layout { ram: 256, rom: 300 },
];

/// Addresses from six before to six after every end, and just above what a
/// pointer keeps of an address.
fn around_the_ends(layout: Layout) -> Vec<u32> {
    let ends = [0, layout.ram as u32, layout.rom_start(), 1 << 24];
    ends.iter()
        .flat_map(|&end| (0..=12).map(move |offset| end.wrapping_add(offset).wrapping_sub(6)))
        .collect()
}

/// A step whose code is in the middle of ROM, where ROM has one.
fn step_in_rom(bench: &mut Bench, layout: Layout, code: &[u8]) -> Case {
    let mut case = Case {
        call: Call::Step,
        record: aim::record(&mut bench.chance, layout),
        ram: aim::noise(&mut bench.chance, layout.ram),
        rom: aim::noise(&mut bench.chance, layout.rom),
    };
    let place = layout.rom / 2 - 3;
    case.rom.put(place, code);
    let counter = layout.rom_start() + place as u32;
    aim::put_long(&mut case.record, COUNTER, counter);
    case
}

/// Loads, operations both ways and stores of each width at each address, by
/// each way of naming it.
pub fn operands(bench: &mut Bench) {
    for layout in LAYOUTS {
        for address in around_the_ends(layout) {
            for width in 0..3 {
                let last_of_load = [0x21, 0x81, 0x89, 0x99, 0xC9, 0xF1, 0xF9];
                for last in last_of_load {
                    operand(
                        bench,
                        layout,
                        address,
                        0x80 + 16 * width,
                        0xC0 + 16 * width,
                        last,
                    );
                }
                operand(bench, layout, address, 0xB0, 0xF0, 0x41 + 16 * width);
            }
            if bench.judge.weary() {
                return;
            }
        }
    }
}

/// One operand at one address: by (R), by (R+d8) and by the address itself,
/// as far as the address can be named so.
fn operand(bench: &mut Bench, layout: Layout, address: u32, by_register: u8, fixed: u8, last: u8) {
    let pointer = 2 + bench.chance.below(6) as u8;
    let high = if bench.chance.once_in(2) {
        bench.chance.long() << 24
    } else {
        0
    };
    let whole = address & 0xFF_FFFF | high;

    let mut case = step_in_rom(bench, layout, &[by_register + pointer, last]);
    aim::set_long(&mut case.record, pointer, whole);
    bench.judge.hold(&case);

    let displacement = bench.chance.byte();
    let base = whole.wrapping_sub(displacement as i8 as u32);
    let mut case = step_in_rom(
        bench,
        layout,
        &[by_register + 8 + pointer, displacement, last],
    );
    aim::set_long(&mut case.record, pointer, base);
    bench.judge.hold(&case);

    let bytes = address.to_le_bytes();
    for length in 1..=3 {
        let mut code = vec![fixed + length as u8 - 1];
        code.extend_from_slice(&bytes[..length]);
        code.push(last);
        let case = step_in_rom(bench, layout, &code);
        bench.judge.hold(&case);
    }
}

/// Pushes, pops, calls and returns, those of SR too, with XSP at each address,
/// with and without a highest byte that no address has.
pub fn stack(bench: &mut Bench) {
    const CODES: [&[u8]; 13] = [
        &[0x18],
        &[0x19],
        &[0x29],
        &[0x39],
        &[0x4A],
        &[0x5A],
        &[0x1C, 0x10, 0x00],
        &[0x1D, 0x34, 0x12, 0xFF],
        &[0x1E, 0xFD, 0xFF],
        &[0x0E],
        &[0x02],
        &[0x03],
        &[0x07],
    ];
    for layout in LAYOUTS {
        for address in around_the_ends(layout) {
            for code in CODES {
                for high in [0, 0xFF00_0000, bench.chance.long() << 24] {
                    let mut case = step_in_rom(bench, layout, code);
                    aim::set_long(&mut case.record, XSP, address & 0xFF_FFFF | high);
                    bench.judge.hold(&case);
                }
            }
            if bench.judge.weary() {
                return;
            }
        }
    }
}

/// Every form at the end of each memory, with all its bytes there, then one
/// fewer each time: stepped and shown.
pub fn code(bench: &mut Bench) {
    for form in forms::listed() {
        for _ in 0..40 * bench.rounds {
            let layout = Layout { ram: 40, rom: 40 };
            let code = aim::code(&mut bench.chance, &form, layout);
            for there in 0..=code.len() {
                cut_code(bench, layout, &code[..there]);
            }
            if bench.judge.weary() {
                return;
            }
        }
    }
}

fn cut_code(bench: &mut Bench, layout: Layout, code: &[u8]) {
    for in_ram in [true, false] {
        let mut case = step_in_rom(bench, layout, &[]);
        let (image, end): (&mut Image, u32) = if in_ram {
            (&mut case.ram, layout.ram as u32)
        } else {
            (&mut case.rom, 1 << 24)
        };
        let place = image.len() - code.len();
        image.put(place, code);
        let at = (end - code.len() as u32) & 0xFF_FFFF;
        aim::put_long(&mut case.record, COUNTER, at);
        bench.judge.hold(&case);
        case.call = Call::Show(at);
        bench.judge.hold(&case);
    }
}
