//! Every way in which a listed instruction comes to memory, aimed at an
//! address.

use draw::aim::{Layout, XSP};
use draw::chance::Chance;
use forms::{Form, Slot};

/// What an instruction does with the memory that it is aimed at.
#[derive(Clone, Copy, Debug, PartialEq, Eq, PartialOrd, Ord)]
pub enum Kind {
    Read,
    Store,
    ReadAndStore,
    Push,
    Pop,
    Call,
    Return,
    Compare,
    /// A copy from there to RAM.
    CopyFrom,
    /// A copy from there to where there is no memory: the source is told.
    CopyFromToNowhere,
    /// A copy from there to ROM: the source is told.
    CopyFromToRom,
    /// A copy from there to another address near by: the source is told.
    CopyFromToThere,
    /// A copy to there from a memory.
    CopyTo,
    /// A copy to ROM from a memory, and not to what is aimed at.
    CopyToRom,
}

impl Kind {
    pub const ALL: [Kind; 14] = [
        Kind::Read,
        Kind::Store,
        Kind::ReadAndStore,
        Kind::Push,
        Kind::Pop,
        Kind::Call,
        Kind::Return,
        Kind::Compare,
        Kind::CopyFrom,
        Kind::CopyFromToNowhere,
        Kind::CopyFromToRom,
        Kind::CopyFromToThere,
        Kind::CopyTo,
        Kind::CopyToRom,
    ];

    /// The sizes that document 01 has for it; RETI's is K8's.
    pub fn sizes(self) -> &'static [u32] {
        match self {
            Kind::Call => &[4],
            Kind::Return => &[4, 6],
            Kind::Read | Kind::Store | Kind::ReadAndStore | Kind::Push | Kind::Pop => &[1, 2, 4],
            _ => &[1, 2],
        }
    }
}

/// How a form comes to its operand.
#[derive(Clone, Copy, PartialEq, Eq)]
enum Way {
    /// By a register, with a displacement or without.
    Pointer,
    /// By the address in the code.
    Fixed,
    /// By XSP less the size.
    Push,
    /// By XSP.
    Pop,
    /// By a pointer that the instruction moves.
    Compare,
    /// By two of them.
    Copy,
}

const BYTE: &[u32] = &[1];
const WORD: &[u32] = &[2];
const LONG: &[u32] = &[4];
const SIX: &[u32] = &[6];
const SHORT: &[u32] = &[1, 2];
const ANY: &[u32] = &[1, 2, 4];

const COMPARES: &str = "CPI CPIR CPD CPDR";
const COPIES: &str = "LDI LDIR LDD LDDR";

/// Every form that has an operand in memory, what it does with it, and its
/// sizes. CP of memory with R only reads. INC, DEC and shifts are not here:
/// document 01 lists these for registers alone.
const TRIED: [(&str, Kind, Way, &[u32]); 39] = [
    ("LD R,(R)", Kind::Read, Way::Pointer, ANY),
    ("ADD to CP R,(R)", Kind::Read, Way::Pointer, ANY),
    ("ADD to CP (R),R", Kind::Read, Way::Pointer, ANY),
    ("ADD to CP (R),R", Kind::ReadAndStore, Way::Pointer, ANY),
    ("LD (R),R", Kind::Store, Way::Pointer, ANY),
    ("LD R,(R+d8)", Kind::Read, Way::Pointer, ANY),
    ("ADD to CP R,(R+d8)", Kind::Read, Way::Pointer, ANY),
    ("ADD to CP (R+d8),R", Kind::Read, Way::Pointer, ANY),
    ("ADD to CP (R+d8),R", Kind::ReadAndStore, Way::Pointer, ANY),
    ("LD (R+d8),R", Kind::Store, Way::Pointer, ANY),
    ("LD to CP with (n8)", Kind::Read, Way::Fixed, ANY),
    ("LD to CP with (n8)", Kind::ReadAndStore, Way::Fixed, ANY),
    ("LD (n8),R", Kind::Store, Way::Fixed, ANY),
    ("LD to CP with (n16)", Kind::Read, Way::Fixed, ANY),
    ("LD to CP with (n16)", Kind::ReadAndStore, Way::Fixed, ANY),
    ("LD (n16),R", Kind::Store, Way::Fixed, ANY),
    ("LD to CP with (n24)", Kind::Read, Way::Fixed, ANY),
    ("LD to CP with (n24)", Kind::ReadAndStore, Way::Fixed, ANY),
    ("LD (n24),R", Kind::Store, Way::Fixed, ANY),
    ("PUSH F", Kind::Push, Way::Push, BYTE),
    ("PUSH SR", Kind::Push, Way::Push, WORD),
    ("PUSH R, word", Kind::Push, Way::Push, WORD),
    ("PUSH R, long", Kind::Push, Way::Push, LONG),
    ("CALL n16", Kind::Call, Way::Push, LONG),
    ("CALL n24", Kind::Call, Way::Push, LONG),
    ("CALR d16", Kind::Call, Way::Push, LONG),
    ("POP F", Kind::Pop, Way::Pop, BYTE),
    ("POP SR", Kind::Pop, Way::Pop, WORD),
    ("POP R, word", Kind::Pop, Way::Pop, WORD),
    ("POP R, long", Kind::Pop, Way::Pop, LONG),
    ("RET", Kind::Return, Way::Pop, LONG),
    ("RETI", Kind::Return, Way::Pop, SIX),
    (COMPARES, Kind::Compare, Way::Compare, SHORT),
    (COPIES, Kind::CopyFrom, Way::Copy, SHORT),
    (COPIES, Kind::CopyFromToNowhere, Way::Copy, SHORT),
    (COPIES, Kind::CopyFromToRom, Way::Copy, SHORT),
    (COPIES, Kind::CopyFromToThere, Way::Copy, SHORT),
    (COPIES, Kind::CopyTo, Way::Copy, SHORT),
    (COPIES, Kind::CopyToRom, Way::Copy, SHORT),
];

/// A form at one of its sizes, what it does and how it comes to its operand.
pub struct Tried {
    pub form: Form,
    pub kind: Kind,
    way: Way,
    size: u32,
}

/// All that is tried.
pub fn tried() -> Vec<Tried> {
    let mut all = Vec::new();
    for (name, kind, way, sizes) in TRIED {
        let form = forms::named(name);
        all.extend(sizes.iter().map(|&size| Tried {
            form: form.clone(),
            kind,
            way,
            size,
        }));
    }
    all
}

/// A long register that an instruction goes by: what it holds, and by how much
/// it moves from one round to the next.
pub struct Pointer {
    pub register: u8,
    pub holds: u32,
    pub stride: u32,
}

/// An instruction that is aimed.
pub struct Access {
    pub kind: Kind,
    pub size: u32,
    pub code: Vec<u8>,
    /// An instruction that moves the pointer, where this one does not.
    pub onward: Vec<u8>,
    /// None where the address is in the code.
    pub pointers: Vec<Pointer>,
    /// The first byte of the operand that a refusal has to tell of.
    pub first: u32,
}

impl Tried {
    /// Whether the form can name an address: a register can hold any, and code
    /// must have bytes enough for it.
    pub fn names(&self, address: u32) -> bool {
        let slots = self.form.slots.iter();
        let bytes = slots.filter(|&slot| *slot == Slot::Address).count();
        self.way != Way::Fixed || u64::from(address) < 1 << (8 * bytes)
    }

    /// Whether it can go from one operand to the next, upward or downward.
    pub fn goes(&self, upward: bool) -> bool {
        match self.way {
            Way::Fixed => false,
            Way::Push => !upward,
            Way::Pop => upward,
            Way::Pointer | Way::Compare | Way::Copy => true,
        }
    }

    /// An instruction of the form, its operand at an address; `None` where the
    /// form cannot name that. Calls call what is at `home`.
    pub fn aimed(&self, chance: &mut Chance, aim: &Aim) -> Option<Access> {
        let code = match self.way {
            _ if !self.names(aim.first) => return None,
            Way::Fixed => self.code(chance, aim.first, aim.upward),
            _ => self.code(chance, aim.home, aim.upward),
        };
        let mut access = Access {
            kind: self.kind,
            size: self.size,
            code,
            onward: Vec::new(),
            pointers: Vec::new(),
            first: aim.first,
        };
        match self.way {
            Way::Fixed => {}
            Way::Push => access.by(XSP, aim.first.wrapping_add(self.size), false),
            Way::Pop => access.by(XSP, aim.first, true),
            Way::Compare => access.by_register(aim.upward),
            Way::Pointer => {
                access.by_register(aim.upward);
                access.go_onward(aim.upward);
            }
            Way::Copy => access.by_two(chance, aim),
        }
        Some(access)
    }

    /// Code that does what is tried, and in the direction that is.
    fn code(&self, chance: &mut Chance, address: u32, upward: bool) -> Vec<u8> {
        loop {
            let code = self.any_code(chance, address);
            let does = match self.way {
                Way::Pointer | Way::Fixed => kind(&code) == self.kind,
                Way::Compare | Way::Copy => (code[1] & 2 == 0) == upward,
                Way::Push | Way::Pop => true,
            };
            if does && size(&code) == self.size {
                return code;
            }
        }
    }

    fn any_code(&self, chance: &mut Chance, address: u32) -> Vec<u8> {
        const CALR: u8 = 0x1E;
        let mut address = address.to_le_bytes().into_iter();
        let slots = self.form.slots.iter().map(|slot| match slot {
            Slot::One(bytes) => chance.pick(bytes),
            Slot::Address => address.next().expect("four bytes of an address"),
            Slot::Constant | Slot::Displacement => chance.byte(),
        });
        let mut code: Vec<u8> = slots.collect();
        if code[0] == CALR {
            // To itself, as the other calls from home.
            code[1..].copy_from_slice(&[0xFD, 0xFF]);
        }
        code
    }
}

/// What an instruction does with an operand that is neither on the stack nor
/// in a block. Of those of memory with R all store but CP.
fn kind(code: &[u8]) -> Kind {
    match (code[0], code[code.len() - 1]) {
        (0xB0..=0xBF | 0xF0..=0xF2, _) => Kind::Store,
        (_, last @ 0x88..=0xF7) if last & 8 != 0 => Kind::ReadAndStore,
        _ => Kind::Read,
    }
}

/// How many bytes an operand has.
fn size(code: &[u8]) -> u32 {
    let size_in = |byte: u8| 1 << (byte >> 4 & 3);
    match code[0] {
        0x18 | 0x19 => 1,
        0x02 | 0x03 | 0x28..=0x2E | 0x48..=0x4E => 2,
        0x07 => 6,
        0x0E | 0x1C..=0x1E | 0x38..=0x3E | 0x58..=0x5E => 4,
        0xB0..=0xBF | 0xF0..=0xF2 => size_in(code[code.len() - 1]),
        first => size_in(first),
    }
}

impl Access {
    fn by(&mut self, register: u8, holds: u32, upward: bool) {
        let stride = if upward {
            self.size
        } else {
            self.size.wrapping_neg()
        };
        self.pointers.push(Pointer {
            register,
            holds,
            stride,
        });
    }

    /// By (R) or (R+d8).
    fn by_register(&mut self, upward: bool) {
        let displaced = self.code[0] & 8 != 0;
        let displacement = if displaced { self.code[1] as i8 } else { 0 };
        let holds = self.first.wrapping_sub(displacement as u32);
        self.by(self.code[0] & 7, holds, upward);
    }

    /// INC or DEC of R goes from one operand to the next.
    fn go_onward(&mut self, upward: bool) {
        let count = if upward { 0x60 } else { 0x68 } + self.size as u8;
        self.onward = vec![0xE8 + (self.code[0] & 7), count];
    }

    /// By the two pointers of a copy: XHL to XDE, or XIY to XIX.
    fn by_two(&mut self, chance: &mut Chance, aim: &Aim) {
        let (source, target) = aim.source_and_target(chance, self.kind);
        let from = self.code[0] & 7;
        self.by(from, source, aim.upward);
        self.by(from - 1, target, aim.upward);
        self.first = match self.kind {
            Kind::CopyTo | Kind::CopyToRom => target,
            _ => source,
        };
    }
}

/// What an instruction is aimed at.
pub struct Aim {
    pub layout: Layout,
    /// The operand's first byte.
    pub first: u32,
    /// Where the instruction will be.
    pub home: u32,
    /// Which way it goes on from there, if it does.
    pub upward: bool,
}

impl Aim {
    /// The two operands of a copy, one of them or both where the aim is.
    fn source_and_target(&self, chance: &mut Chance, kind: Kind) -> (u32, u32) {
        let there = self.first;
        let nowhere = 0x10_0000 + chance.below(0xE0_0000);
        let ram = self.layout.ram as u32 / 4 * 3;
        let rom = self.layout.rom_start() + self.layout.rom as u32 / 4 * 3;
        let ram_is_longer = self.layout.ram > self.layout.rom;
        let whole = if ram_is_longer { ram } else { rom };
        // The target follows the source, so that after some rounds it is the
        // source that is refused.
        let apart = 1 + chance.below(4);
        let following = if self.upward {
            there.wrapping_sub(apart)
        } else {
            there.wrapping_add(apart)
        };
        match kind {
            Kind::CopyFromToNowhere => (there, nowhere),
            Kind::CopyFromToRom => (there, rom),
            Kind::CopyFromToThere => (there, following),
            Kind::CopyTo => (whole, there),
            Kind::CopyToRom => (whole, rom),
            _ => (there, ram),
        }
    }
}
