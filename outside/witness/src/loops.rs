//! Five loops that never end, for the witness's board as it is: all that they read
//! and write lies in its RAM, and the code in its ROM. They are the kinds of work of
//! the benchmark's mixes; what the board has at (n8) is not RAM, so that form is left
//! out. Before it goes back to its start each adds one to XWA of bank 3, so that it
//! can be told how far it is.

use crate::mame::{BOARD_LENGTH, BOARD_RAM};
use crate::trial::{FULL, MOST};
use draw::aim;
use second::record::{BANK, COUNTER, LENGTH};

/// A name, and the code: a line an instruction.
pub struct Loop {
    pub name: &'static str,
    code: &'static str,
}

pub const LOOPS: [Loop; 5] = [
    // register work of all sizes, a load and a store
    Loop {
        name: "registers",
        code: "
            C9 C8 07        | ADD A,7
            C9 90           | ADC W,A
            DA C1           | AND BC,DE
            DB A2           | SUB DE,HL
            EC 80           | ADD XWA,XIX
            E8 D1           | XOR XBC,XWA
            DB EC 03        | SLA 3,HL
            E9 EF 05        | SRL 5,XBC
            C9 61           | INC 1,A
            DA 69           | DEC 1,DE
            EB 8C           | LD XIX,XHL
            D8 13           | EXTS WA
            33 34 12        | LD HL,1234H
            BD 04 61        | LD (XIY+4),XBC
            8D 05 21        | LD A,(XIY+5)
            C9 F0           | CP W,A
            66 00           | JR Z, to the next
            E7 30 61        | INC 1,XWA3
            1B 00 00 FF     | JP, to the start
        ",
    },
    // loads, stores and operations with memory: each size and direction, four address forms
    Loop {
        name: "memory",
        code: "
            44 00 48 00 00  | LD XIX,4800H
            21 5A           | LD A,5AH
            31 34 12        | LD BC,1234H
            DA 03 CD AB     | LD DE,ABCDH
            84 20           | LD W,(XIX)
            94 23           | LD HL,(XIX)
            A4 26           | LD XIZ,(XIX)
            84 81           | ADD A,(XIX)
            94 92           | ADC DE,(XIX)
            A4 A1           | SUB XBC,(XIX)
            84 F9           | CP (XIX),A
            94 EA           | OR (XIX),DE
            A4 D9           | XOR (XIX),XBC
            B4 41           | LD (XIX),A
            B4 52           | LD (XIX),DE
            B4 61           | LD (XIX),XBC
            8D 05 20        | LD W,(XIY+5)
            9D FE 23        | LD HL,(XIY-2)
            AD 08 26        | LD XIZ,(XIY+8)
            8D 10 B1        | SBC A,(XIY+16)
            9D 12 C2        | AND DE,(XIY+18)
            AD F0 D1        | XOR XBC,(XIY-16)
            8D 14 C9        | AND (XIY+20),A
            9D 16 BA        | SBC (XIY+22),DE
            AD 18 A9        | SUB (XIY+24),XBC
            BD 20 41        | LD (XIY+32),A
            BD EE 52        | LD (XIY-18),DE
            BD 24 61        | LD (XIY+36),XBC
            C1 00 60 20     | LD W,(6000H)
            D1 02 60 23     | LD HL,(6002H)
            E1 04 60 26     | LD XIZ,(6004H)
            C1 08 60 91     | ADC A,(6008H)
            D1 0A 60 A2     | SUB DE,(600AH)
            E1 0C 60 F1     | CP XBC,(600CH)
            C1 10 60 A9     | SUB (6010H),A
            D1 12 60 FA     | CP (6012H),DE
            E1 14 60 89     | ADD (6014H),XBC
            F1 18 60 41     | LD (6018H),A
            F1 1A 60 52     | LD (601AH),DE
            F1 1C 60 61     | LD (601CH),XBC
            C2 00 68 00 20  | LD W,(006800H)
            D2 02 68 00 23  | LD HL,(006802H)
            E2 04 68 00 26  | LD XIZ,(006804H)
            C2 08 68 00 F1  | CP A,(006808H)
            D2 0A 68 00 82  | ADD DE,(00680AH)
            E2 0C 68 00 C1  | AND XBC,(00680CH)
            C2 10 68 00 89  | ADD (006810H),A
            D2 12 68 00 CA  | AND (006812H),DE
            E2 14 68 00 E9  | OR (006814H),XBC
            F2 18 68 00 41  | LD (006818H),A
            F2 1A 68 00 52  | LD (00681AH),DE
            F2 1C 68 00 61  | LD (00681CH),XBC
            E7 30 61        | INC 1,XWA3
            1B 00 00 FF     | JP, to the start
        ",
    },
    // calls, pushes and pops
    Loop {
        name: "stack",
        code: "
            1E 0F 00        | CALR, to the last three
            38              | PUSH XWA
            29              | PUSH BC
            18              | PUSH F
            19              | POP F
            49              | POP BC
            58              | POP XWA
            1D 12 00 FF     | CALL, the same
            E7 30 61        | INC 1,XWA3
            68 EE           | JR, to the start
            3A              | PUSH XDE
            5A              | POP XDE
            0E              | RET
        ",
    },
    // LDIR over blocks of 6,144 bytes
    Loop {
        name: "ldir",
        code: "
            42 00 58 00 00  | LD XDE,5800H
            43 00 40 00 00  | LD XHL,4000H
            31 00 18        | LD BC,1800H
            83 11           | LDIR
            E7 30 61        | INC 1,XWA3
            1B 00 00 FF     | JP, to the start
        ",
    },
    // CPIR over blocks of 12,288 bytes
    Loop {
        name: "cpir",
        code: "
            21 FE           | LD A,FEH, which RAM has nowhere
            44 00 40 00 00  | LD XIX,4000H
            31 00 30        | LD BC,3000H
            84 15           | CPIR
            E7 30 61        | INC 1,XWA3
            1B 00 00 FF     | JP, to the start
        ",
    },
];

/// XHL, XIY and XSP before the first step.
const LONGS: [(u8, u32); 3] = [(3, 0x1234_5678), (5, 0x5000), (7, 0x6000)];
/// Where in a record XWA of bank 3 stands.
const TURNS: usize = 3 * second::record::BANK_SIZE;

/// How often a loop went back to its start, by the registers.
pub fn turns(registers: &[u8]) -> u64 {
    u64::from(aim::get_long(registers, TURNS))
}

impl Loop {
    pub fn record(&self) -> Vec<u8> {
        let mut record = vec![0; LENGTH];
        record[BANK] = 0xF8;
        aim::put_long(&mut record, COUNTER, FULL.rom_start());
        for (code, value) in LONGS {
            aim::set_long(&mut record, code, value);
        }
        record
    }

    /// RAM, of which the board has a part.
    pub fn ram(&self) -> Vec<u8> {
        let mut ram = vec![0; MOST];
        for (place, byte) in ram[BOARD_RAM..][..BOARD_LENGTH].iter_mut().enumerate() {
            *byte = (place % 251) as u8;
        }
        ram
    }

    pub fn rom(&self) -> Vec<u8> {
        let lines = self.code.lines().filter_map(|line| line.split_once('|'));
        let digits = lines.flat_map(|(digits, _)| digits.split_whitespace());
        let byte = |digits| u8::from_str_radix(digits, 16).expect("a byte in hex");
        let mut rom: Vec<u8> = digits.map(byte).collect();
        rom.resize(MOST, 0);
        rom
    }
}

pub fn named(name: &str) -> Option<&'static Loop> {
    LOOPS.iter().find(|one| one.name == name)
}
