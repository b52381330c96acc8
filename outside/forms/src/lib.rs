//! The listed codes, in document 01's order, as data to test with.
//!
//! Written from document 01, and from those requests of document 02 that have
//! landed, alone. The second interpreter's tests go through it and the
//! comparison draws from it; the interpreter itself does not know it, so that
//! the two stay apart.

#![forbid(unsafe_code)]

pub mod banks;
pub mod feed;
pub mod marks;
pub mod records;
pub mod requests;

/// One line for each form, in hex: bytes or ranges of bytes, `00-3F/2` for every
/// second byte of a range; `n` for a byte of a constant, `a` of an address, `d`
/// of a displacement. Where forms differ only in what they do they may share a
/// line; the comparison draws equally often from each line. What K1 adds is
/// called any byte, any word, any long: these have few lines, or there would be
/// too much of them in what is drawn. MINC and MDEC have two lines for each step:
/// numbers to 80H, which differ in the low byte, and those from 100H on.
const LISTED: &str = "
    NOP                 | 00
    INCF                | 0C
    DECF                | 0D
    LDF n               | 17 00-07
    RCF SCF CCF ZCF     | 10-13
    EX F,F'             | 16
    PUSH F              | 18
    POP F               | 19
    EI n                | 06 00-07
    PUSH SR             | 02
    POP SR              | 03
    RETI                | 07

    LD R,n8             | 20-27 n
    LD R,n16            | 30-37 n n
    LD R,n32            | 40-47 n n n n

    PUSH R, word        | 28-2E
    PUSH R, long        | 38-3E
    POP R, word         | 48-4E
    POP R, long         | 58-5E

    JP n16              | 1A a a
    JP n24              | 1B a a a
    CALL n16            | 1C a a
    CALL n24            | 1D a a a
    CALR d16            | 1E d d
    RET                 | 0E
    JR cc,d8            | 60-6F d
    JRL cc,d16          | 70-7F d d

    LD r,n8             | C8-CF 03 n
    LD r,n16            | D8-DF 03 n n
    LD r,n32            | E8-EF 03 n n n n
    LD R,r              | C8-CF,D8-DF,E8-EF 88-8F
    LD r,R              | C8-CF,D8-DF,E8-EF 98-9F
    ADD ADC R,r         | C8-CF,D8-DF,E8-EF 80-87,90-97
    SUB SBC R,r         | C8-CF,D8-DF,E8-EF A0-A7,B0-B7
    AND XOR OR R,r      | C8-CF,D8-DF,E8-EF C0-C7,D0-D7,E0-E7
    CP R,r              | C8-CF,D8-DF,E8-EF F0-F7
    ADD to CP r,n8      | C8-CF C8-CF n
    ADD to CP r,n16     | D8-DF C8-CF n n
    ADD to CP r,n32     | E8-EF C8-CF n n n n
    INC n,r             | C8-CF,D8-DF,E8-EF 60-67
    DEC n,r             | C8-CF,D8-DF,E8-EF 68-6F
    SLA SRA SLL SRL n,r | C8-CF,D8-DF,E8-EF EC-EF 00-0F
    EXTZ r              | D8-DF,E8-EF 12
    EXTS r              | D8-DF,E8-EF 13

    MUL to DIVS R,r8    | C8-CF 41-5F/2
    MUL to DIVS R,r16   | D8-DF 40-5F
    MUL to DIVS r,n8    | C9-CF/2 08-0B n
    MUL to DIVS r,n16   | D8-DF 08-0B n n
    MINC1 MDEC1 to 80H  | D8-DF 38,3C 01,03,07,0F,1F,3F,7F 00
    MINC1 MDEC1 beyond  | D8-DF 38,3C FF 00,01,03,07,0F,1F,3F,7F
    MINC2 MDEC2 to 80H  | D8-DF 39,3D 02,06,0E,1E,3E,7E 00
    MINC2 MDEC2 beyond  | D8-DF 39,3D FE 00,01,03,07,0F,1F,3F,7F
    MINC4 MDEC4 to 80H  | D8-DF 3A,3E 04,0C,1C,3C,7C 00
    MINC4 MDEC4 beyond  | D8-DF 3A,3E FC 00,01,03,07,0F,1F,3F,7F

    any byte with n8    | C7 00-3F,D0-FF 03,C8-CF n
    any word with n16   | D7 00-3F/2,D0-FF/2 03,C8-CF n n
    any long with n32   | E7 00-3F/4,D0-FF/4 03,C8-CF n n n n
    any byte, R or none | C7 00-3F,D0-FF 41-5F/2,60-6F,80-9F,A0-A7,B0-B7,C0-C7,D0-D7,E0-E7,F0-F7
    any word, R or none | D7 00-3F/2,D0-FF/2 40-5F,60-6F,80-9F,A0-A7,B0-B7,C0-C7,D0-D7,E0-E7,F0-F7
    any long, R or none | E7 00-3F/4,D0-FF/4 60-6F,80-9F,A0-A7,B0-B7,C0-C7,D0-D7,E0-E7,F0-F7
    SLA to SRL any byte | C7 00-3F,D0-FF EC-EF 00-0F
    SLA to SRL any word | D7 00-3F/2,D0-FF/2 EC-EF 00-0F
    SLA to SRL any long | E7 00-3F/4,D0-FF/4 EC-EF 00-0F
    EXTZ EXTS any word  | D7 00-3F/2,D0-FF/2 12-13
    EXTZ EXTS any long  | E7 00-3F/4,D0-FF/4 12-13
    MUL to DIVS any, n8 | C7 00-3F/2,D0-FF/2 08-0B n
    MUL to DIVS any n16 | D7 00-3F/4,D0-FF/4 08-0B n n
    MINC1 any, to 80H   | D7 00-3F/2,D0-FF/2 38,3C 01,03,07,0F,1F,3F,7F 00
    MINC1 any, beyond   | D7 00-3F/2,D0-FF/2 38,3C FF 00,01,03,07,0F,1F,3F,7F
    MINC2 any, to 80H   | D7 00-3F/2,D0-FF/2 39,3D 02,06,0E,1E,3E,7E 00
    MINC2 any, beyond   | D7 00-3F/2,D0-FF/2 39,3D FE 00,01,03,07,0F,1F,3F,7F
    MINC4 any, to 80H   | D7 00-3F/2,D0-FF/2 3A,3E 04,0C,1C,3C,7C 00
    MINC4 any, beyond   | D7 00-3F/2,D0-FF/2 3A,3E FC 00,01,03,07,0F,1F,3F,7F

    LD R,(R)            | 80-87,90-97,A0-A7 20-27
    ADD to CP R,(R)     | 80-87,90-97,A0-A7 80-87,90-97,A0-A7,B0-B7,C0-C7,D0-D7,E0-E7,F0-F7
    ADD to CP (R),R     | 80-87,90-97,A0-A7 88-8F,98-9F,A8-AF,B8-BF,C8-CF,D8-DF,E8-EF,F8-FF
    LD R,(R+d8)         | 88-8F,98-9F,A8-AF d 20-27
    ADD to CP R,(R+d8)  | 88-8F,98-9F,A8-AF d 80-87,90-97,A0-A7,B0-B7,C0-C7,D0-D7,E0-E7,F0-F7
    ADD to CP (R+d8),R  | 88-8F,98-9F,A8-AF d 88-8F,98-9F,A8-AF,B8-BF,C8-CF,D8-DF,E8-EF,F8-FF
    LD to CP with (n8)  | C0,D0,E0 a 20-27,80-FF
    LD to CP with (n16) | C1,D1,E1 a a 20-27,80-FF
    LD to CP with (n24) | C2,D2,E2 a a a 20-27,80-FF

    LD (R),R            | B0-B7 40-47,50-57,60-67
    LD (R+d8),R         | B8-BF d 40-47,50-57,60-67
    LD (n8),R           | F0 a 40-47,50-57,60-67
    LD (n16),R          | F1 a a 40-47,50-57,60-67
    LD (n24),R          | F2 a a a 40-47,50-57,60-67

    LDI LDIR LDD LDDR   | 83,85,93,95 10-13
    CPI CPIR CPD CPDR   | 82-87,92-97 14-17
";

/// One place of a form.
#[derive(Clone, Debug, PartialEq, Eq)]
pub enum Slot {
    /// One of these bytes.
    One(Vec<u8>),
    /// A byte of a constant.
    Constant,
    /// A byte of an address.
    Address,
    /// A byte of a displacement.
    Displacement,
}

impl Slot {
    /// Whether a byte may stand there.
    pub fn takes(&self, byte: u8) -> bool {
        match self {
            Slot::One(bytes) => bytes.contains(&byte),
            _ => true,
        }
    }
}

/// The codes of one line: the bytes of an instruction, one after another.
#[derive(Clone, Debug, PartialEq, Eq)]
pub struct Form {
    pub name: &'static str,
    pub slots: Vec<Slot>,
}

/// Forms in which every byte of the first place, of the second, or of the third
/// is another instruction; elsewhere its lowest three bits name a register or a
/// number.
const WHOLE_FIRST: [&str; 3] = ["RCF SCF CCF ZCF", "JR cc,d8", "JRL cc,d16"];
const WHOLE_SECOND: [&str; 8] = [
    "ADD to CP r,n8",
    "ADD to CP r,n16",
    "ADD to CP r,n32",
    "SLA SRA SLL SRL n,r",
    "MUL to DIVS r,n8",
    "MUL to DIVS r,n16",
    "LDI LDIR LDD LDDR",
    "CPI CPIR CPD CPDR",
];
const WHOLE_THIRD: [&str; 10] = [
    "any byte with n8",
    "any word with n16",
    "any long with n32",
    "SLA to SRL any byte",
    "SLA to SRL any word",
    "SLA to SRL any long",
    "EXTZ EXTS any word",
    "EXTZ EXTS any long",
    "MUL to DIVS any, n8",
    "MUL to DIVS any n16",
];

impl Form {
    /// Whether it begins with C7, D7 or E7.
    pub fn is_of_k1(&self) -> bool {
        let mut firsts = banks::SIZES.iter().map(|size| size.any);
        firsts.any(|first| self.slots[0].takes(first))
    }

    /// Whether it is of MINC and MDEC: a number stands in its last two bytes.
    fn has_a_number(&self) -> bool {
        self.name.starts_with("MINC")
    }

    /// The form taken apart: each part does one thing in one size, whatever
    /// registers and numbers it names.
    pub fn kinds(&self) -> Vec<Form> {
        let mut kinds = vec![self.clone()];
        for place in 0..self.slots.len() {
            kinds = kinds.iter().flat_map(|kind| kind.apart(place)).collect();
        }
        kinds
    }

    /// What tells the bytes of a place apart. The high half of the first byte
    /// has the size.
    fn telling(&self, place: usize) -> u8 {
        match place {
            0 if WHOLE_FIRST.contains(&self.name) => 0xFF,
            0 => 0xF0,
            // All of it names a register.
            1 if self.is_of_k1() => 0x00,
            1 if WHOLE_SECOND.contains(&self.name) => 0xFF,
            2 if WHOLE_THIRD.contains(&self.name) => 0xFF,
            _ if self.has_a_number() => match place + 2 < self.slots.len() {
                true => 0xFF,
                false => 0x00,
            },
            _ => 0xF8,
        }
    }

    fn apart(&self, place: usize) -> Vec<Form> {
        let Slot::One(bytes) = &self.slots[place] else {
            return vec![self.clone()];
        };
        let telling = self.telling(place);
        let mut told: Vec<u8> = bytes.iter().map(|byte| byte & telling).collect();
        told.dedup();
        told.into_iter()
            .map(|one| {
                let mut part = self.clone();
                let ones = bytes.iter().filter(|&byte| byte & telling == one);
                part.slots[place] = Slot::One(ones.copied().collect());
                part
            })
            .collect()
    }
}

/// Every listed form.
pub fn listed() -> Vec<Form> {
    let lines = LISTED.lines().filter(|line| !line.trim().is_empty());
    lines.map(form).collect()
}

/// The form of a line with this name.
pub fn named(name: &str) -> Form {
    let form = listed().into_iter().find(|form| form.name == name);
    form.unwrap_or_else(|| panic!("no form is called {name}"))
}

/// What code answers where nothing comes behind it, judged byte by byte: 0 and
/// the length of the instruction that it begins with, or 3 or 4.
pub fn judged(forms: &[Form], code: &[u8]) -> (u8, usize) {
    let mut fitting: Vec<&Form> = forms.iter().collect();
    for (place, &byte) in code.iter().enumerate() {
        fitting.retain(|form| form.slots[place].takes(byte));
        let length = place + 1;
        if fitting.is_empty() {
            return (4, 0);
        }
        if fitting.iter().any(|form| form.slots.len() == length) {
            return (0, length);
        }
    }
    (3, 0)
}

fn form(line: &'static str) -> Form {
    let (name, codes) = line.split_once('|').expect("a name and its codes");
    Form {
        name: name.trim(),
        slots: codes.split_whitespace().map(slot).collect(),
    }
}

fn slot(word: &str) -> Slot {
    match word {
        "n" => Slot::Constant,
        "a" => Slot::Address,
        "d" => Slot::Displacement,
        _ => Slot::One(word.split(',').flat_map(range).collect()),
    }
}

fn range(word: &str) -> impl Iterator<Item = u8> {
    let value = |digits: &str| u8::from_str_radix(digits, 16).expect("a byte in hex");
    let (ends, step) = word.split_once('/').unwrap_or((word, "1"));
    let (low, high) = ends.split_once('-').unwrap_or((ends, ends));
    (value(low)..=value(high)).step_by(usize::from(value(step)))
}
