//! Instructions one by one, to see what each kind costs.
//!
//! ROM is full of one instruction, and so long that a run of [`STEPS`] ends
//! before ROM does: there is no jump back, and nothing else is counted.

use crate::scene::{Scene, MOST};
use second::{Machine, Width};

/// The most steps of a run. ROM has more places than this for seven bytes, and
/// RAM room for as many pushes, pops, RETIs and copied words.
pub const STEPS: u32 = 8_000;

/// One line a kind: its code, where it has no size; else that for bytes, that
/// for words and that for longs, where there is one. With (C7) the register r is
/// named by a byte behind C7, D7 or E7: of bank 2, or of the bank before for r'.
const KINDS: &str = "
    NOP           | 00
    RCF           | 10
    EX F,F'       | 16
    INCF          | 0C
    LDF n         | 17 01
    JR, taken     | 6E 00
    JR, not taken | 66 00
    JRL, taken    | 7E 00 00
    JP n24        | 1B 00 00 FF
    CALL n24      | 1D 00 00 FF
    CALR          | 1E 00 00
    RET           | 0E
    PUSH F        | 18
    POP F         | 19
    EI n          | 06 03
    PUSH SR       | 02
    POP SR        | 03
    RETI          | 07
    PUSH R        | -              | 2B             | 3B
    POP R         | -              | 4B             | 5B
    LD R,n        | 23 5A          | 33 5A A5       | 43 5A A5 3C C3
    LD r,n        | CB 03 5A       | DB 03 5A A5    | EB 03 5A A5 3C C3
    LD R,r        | CA 8B          | DA 8B          | EA 8B
    LD r,R        | CA 9B          | DA 9B          | EA 9B
    EXTZ r        | -              | DA 12          | EA 12
    EXTS r        | -              | DA 13          | EA 13
    INC 1,r       | CA 61          | DA 61          | EA 61
    DEC 1,r       | CA 69          | DA 69          | EA 69
    ADD R,r       | CA 83          | DA 83          | EA 83
    ADC R,r       | CA 93          | DA 93          | EA 93
    SUB R,r       | CA A3          | DA A3          | EA A3
    AND R,r       | CA C3          | DA C3          | EA C3
    CP R,r        | CA F3          | DA F3          | EA F3
    ADD r,n       | CA C8 5A       | DA C8 5A A5    | EA C8 5A A5 3C C3
    SLA 1,r       | CA EC 01       | DA EC 01       | EA EC 01
    SLA 4,r       | CA EC 04       | DA EC 04       | EA EC 04
    SLA 16,r      | CA EC 00       | DA EC 00       | EA EC 00
    MUL R,r       | CA 47          | DA 43          | -
    MULS R,r      | CA 4F          | DA 4B          | -
    DIV R,r       | CA 57          | DA 53          | -
    DIVS R,r      | CA 5F          | DA 5B          | -
    MUL r,n       | CF 08 5B       | DB 08 5B A5    | -
    MULS r,n      | CF 09 5B       | DB 09 5B A5    | -
    DIV r,n       | CF 0A 5B       | DB 0A 5B A5    | -
    DIVS r,n      | CF 0B B3       | DB 0B 01 A0    | -
    DIV r,0       | CF 0A 00       | DB 0A 00 00    | -
    MINC1 8,r     | -              | DA 38 07 00    | -
    MDEC1 8,r     | -              | DA 3C 07 00    | -
    LD R,r (C7)   | C7 25 8B       | D7 28 8B       | E7 28 8B
    LD R,r' (C7)  | C7 D5 8B       | D7 D8 8B       | E7 D8 8B
    LD r,R (C7)   | C7 25 9B       | D7 28 9B       | E7 28 9B
    INC 1,r (C7)  | C7 25 61       | D7 28 61       | E7 28 61
    ADD R,r (C7)  | C7 25 83       | D7 28 83       | E7 28 83
    ADD r,n (C7)  | C7 25 C8 5A    | D7 28 C8 5A A5 | E7 28 C8 5A A5 3C C3
    SLA 4,r (C7)  | C7 25 EC 04    | D7 28 EC 04    | E7 28 EC 04
    LD R,(R)      | 84 23          | 94 23          | A4 23
    LD R,(R+d8)   | 8C 04 23       | 9C 04 23       | AC 04 23
    LD R,(n8)     | C0 40 23       | D0 40 23       | E0 40 23
    LD R,(n16)    | C1 00 20 23    | D1 00 20 23    | E1 00 20 23
    LD R,(n24)    | C2 00 20 00 23 | D2 00 20 00 23 | E2 00 20 00 23
    LD (R),R      | B4 43          | B4 53          | B4 63
    LD (R+d8),R   | BC 04 43       | BC 04 53       | BC 04 63
    LD (n16),R    | F1 00 20 43    | F1 00 20 53    | F1 00 20 63
    ADD R,(R)     | 84 83          | 94 83          | A4 83
    ADD (R),R     | 84 8B          | 94 8B          | A4 8B
    CP R,(R)      | 84 F3          | 94 F3          | A4 F3
    CP (R),R      | 84 FB          | 94 FB          | A4 FB
    LDI           | 83 10          | 93 10          | -
    LDIR          | 83 11          | 93 11          | -
    CPI           | 84 14          | 94 14          | -
    CPIR          | 84 15          | 94 15          | -
";

/// The long registers, by their codes. A is FEH, which RAM has nowhere; BC
/// has more rounds than a run has steps; the pointers and the stack stand in
/// RAM.
const LONGS: [(u8, u32); 6] = [
    (0, 0x1122_33FE),
    (1, 0x4455_B3C5),
    (2, 0x0000_A001),
    (3, 0x0000_2003),
    (4, 0x0000_4000),
    (7, 0x0000_8000),
];

/// Banks 2 and 3 hold the same as bank 0, the current one, so that a kind with
/// (C7) differs from the one without in the name of r alone.
const OTHER_BANKS: [u8; 2] = [2, 3];

/// RETI pops six bytes a step: more than RAM has above where the stack stands
/// for the others. Among them is the byte that says which 64 KiB it goes to.
const RETI: [u8; 1] = [0x07];
const RETI_STACK: u32 = 0x1000;
const XSP: u8 = 7;

/// What XHL holds for DIVS, of bytes and of words: divided by what B and DE hold, it
/// gives itself as remainder and quotient, so that no step overflows. A quotient
/// without a sign fits for ever once it does.
const DIVIDENDS: [u32; 2] = [0x0000_E655, 0xE000_5555];
const XHL: u8 = 3;

pub struct Kind {
    pub name: &'static str,
    pub codes: Vec<Code>,
}

/// The code of a kind at one size. What has no size is called plain.
pub struct Code {
    pub size: &'static str,
    bytes: Vec<u8>,
}

pub fn kinds() -> Vec<Kind> {
    let lines = KINDS.lines().filter(|line| !line.trim().is_empty());
    lines.map(kind).collect()
}

fn kind(line: &'static str) -> Kind {
    let mut columns = line.split('|').map(str::trim);
    let name = columns.next().expect("a name");
    let columns: Vec<&str> = columns.collect();
    let sizes: &[&str] = match columns.len() {
        1 => &["plain"],
        3 => &["byte", "word", "long"],
        _ => panic!("{name} has neither one code nor three"),
    };
    let codes = sizes.iter().zip(columns).filter(|(_, code)| *code != "-");
    Kind {
        name,
        codes: codes.map(|(size, code)| self::code(size, code)).collect(),
    }
}

fn code(size: &'static str, digits: &str) -> Code {
    let byte = |digits| u8::from_str_radix(digits, 16).expect("a byte in hex");
    Code {
        size,
        bytes: digits.split(' ').map(byte).collect(),
    }
}

impl Code {
    pub fn scene(&self) -> Scene {
        let rom = self.bytes.iter().copied().cycle().take(MOST).collect();
        let mut scene = Scene::new(rom, &LONGS);
        for bank in OTHER_BANKS {
            fill(&mut scene.machine, bank);
        }
        if self.bytes == RETI {
            lay_returns(&mut scene);
        }
        if let Some(dividend) = self.dividend() {
            scene.machine.set(Width::Long, XHL, dividend);
        }
        scene
    }

    /// What is divided by DIVS.
    fn dividend(&self) -> Option<u32> {
        match self.bytes[..] {
            [0xCA, 0x5F] | [0xCF, 0x0B, _] => Some(DIVIDENDS[0]),
            [0xDA, 0x5B] | [0xDB, 0x0B, _, _] => Some(DIVIDENDS[1]),
            _ => None,
        }
    }

    /// Whether every step of a run does this instruction and no other.
    pub fn alone(&self) -> bool {
        let mut scene = self.scene();
        (0..STEPS).all(|_| {
            let (shown, _) = second::show(&scene.ram, &scene.rom, scene.machine.counter);
            shown == self.bytes
                && second::step(&mut scene.machine, &mut scene.ram, &scene.rom) == (0, 0)
        })
    }
}

/// Sets the registers in another bank; the current one stays the current one.
fn fill(machine: &mut Machine, bank: u8) {
    let current = std::mem::replace(&mut machine.bank, bank);
    for (code, value) in LONGS {
        machine.set(Width::Long, code, value);
    }
    machine.bank = current;
}

/// A stack from which every RETI goes on in ROM.
fn lay_returns(scene: &mut Scene) {
    let stack = RETI_STACK as usize..scene.ram.len();
    for frame in scene.ram[stack].chunks_exact_mut(6) {
        frame[4] = 0xFF;
    }
    scene.machine.set(Width::Long, XSP, RETI_STACK);
}
