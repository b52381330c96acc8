//! From code bytes to instructions.
//!
//! A code byte is taken as three octal digits (2, 3 and 3 bits): almost every
//! listed code is a group in the first two digits with a register, a small
//! number or a member of the group in the last. Only the byte by which K1 names
//! a register is another matter ([`Register`]). Bytes are taken one at a time,
//! so the first byte that is missing or fits nothing decides.

use crate::arithmetic::{Operation, Scale, Shift};
use crate::number;
use crate::register::Register;
use crate::width::{gather, Width};

/// A listed instruction, with everything its bytes say.
#[derive(Clone, Copy, Debug, PartialEq, Eq)]
pub(crate) enum Instruction {
    Nothing,
    /// INCF, DECF: the bank moves by so much, modulo 4.
    MoveBank(u8),
    /// LDF: the number as it stands in the code, 0 to 7.
    SetBank(u8),
    /// RCF, SCF, CCF, ZCF.
    Carry(Carry),
    ExchangeFlags,
    PushFlags,
    PopFlags,
    Load {
        width: Width,
        to: Operand,
        from: Operand,
    },
    Push(Width, u8),
    Pop(Width, u8),
    Jump(u8, Target),
    Call(Target),
    Return,
    /// EI: the level as it stands in the code, 0 to 7.
    SetLevel(u8),
    PushStatus,
    PopStatus,
    /// RETI.
    ReturnFromRequest,
    /// `left` becomes the operation of `left` with `right`.
    Combine {
        operation: Operation,
        width: Width,
        left: Operand,
        right: Operand,
    },
    /// INC, DEC: 1 to 8 up, or down if negative.
    Count {
        width: Width,
        register: Register,
        by: i64,
    },
    Shift {
        kind: Shift,
        width: Width,
        register: Register,
        places: u32,
    },
    Extend {
        width: Width,
        register: Register,
        keep_sign: bool,
    },
    /// MUL, MULS, DIV, DIVS: `width` is that of `to`, and `by` has half of it.
    Scale {
        kind: Scale,
        signed: bool,
        width: Width,
        to: Register,
        by: Operand,
    },
    /// MINC, MDEC: 1, 2 or 4 up, or down if negative, in a table of so many.
    Cycle {
        register: Register,
        by: i64,
        table: i64,
    },
    /// LDI, LDIR, LDD, LDDR: one round.
    CopyRound {
        to: u8,
        from: u8,
        round: Round,
    },
    /// CPI, CPIR, CPD, CPDR: one round.
    CompareRound {
        pointer: u8,
        round: Round,
    },
}

/// What the copies and compares have in common.
#[derive(Clone, Copy, Debug, PartialEq, Eq)]
pub(crate) struct Round {
    pub width: Width,
    pub downward: bool,
    pub repeat: bool,
}

/// A register, a constant, or a place in memory.
#[derive(Clone, Copy, Debug, PartialEq, Eq)]
pub(crate) enum Operand {
    Register(Register),
    Constant(u32),
    Memory(Place),
}

impl Operand {
    /// The register of a code from 0 to 7.
    fn short(code: u8) -> Operand {
        Operand::Register(Register::Short(code))
    }
}

/// How an address is given.
#[derive(Clone, Copy, Debug, PartialEq, Eq)]
pub(crate) enum Place {
    /// A long register's contents and a signed displacement.
    Near(u8, i64),
    /// The address itself.
    Fixed(u32),
}

/// Where a jump or call goes.
#[derive(Clone, Copy, Debug, PartialEq, Eq)]
pub(crate) enum Target {
    At(u32),
    /// Counted from the next instruction.
    Away(i64),
}

/// What becomes of C.
#[derive(Clone, Copy, Debug, PartialEq, Eq)]
pub(crate) enum Carry {
    Zero,
    One,
    Opposite,
    NotZ,
}

/// The condition that is always met.
const ALWAYS: u8 = 8;

type Decoded = Result<Instruction, u8>;

const NOT_LISTED: Decoded = Err(number::NOT_LISTED);

/// The instruction at the start of these bytes and its length. The bytes are
/// all there are in that memory: 3 if they end inside a listed instruction,
/// 4 at the first of them that rules every listed instruction out.
pub(crate) fn decode(bytes: &[u8]) -> Result<(Instruction, usize), u8> {
    let mut code = Code { bytes, taken: 0 };
    let instruction = first(&mut code)?;
    Ok((instruction, code.taken))
}

/// Code bytes, taken from the front.
struct Code<'a> {
    bytes: &'a [u8],
    taken: usize,
}

impl Code<'_> {
    fn byte(&mut self) -> Result<u8, u8> {
        let byte = *self.bytes.get(self.taken).ok_or(number::NO_CODE)?;
        self.taken += 1;
        Ok(byte)
    }

    /// The next byte as three octal digits.
    fn octal(&mut self) -> Result<(u8, u8, u8), u8> {
        let byte = self.byte()?;
        Ok((byte / 64, byte / 8 % 8, byte % 8))
    }

    /// The next bytes as a number, low byte first. The bytes of a constant
    /// rule nothing out, so it does not matter that they are taken together.
    fn number(&mut self, size: usize) -> Result<u32, u8> {
        let rest = &self.bytes[self.taken..];
        let part = rest.get(..size).ok_or(number::NO_CODE)?;
        self.taken += size;
        Ok(gather(part))
    }

    fn constant(&mut self, width: Width) -> Result<Operand, u8> {
        Ok(Operand::Constant(self.number(width.bytes())?))
    }

    /// A signed displacement.
    fn displacement(&mut self, width: Width) -> Result<i64, u8> {
        Ok(width.signed(self.number(width.bytes())?))
    }

    /// An address of one to three bytes: the low digit of C0, C1, C2 and
    /// their like. Bits not given are 0.
    fn fixed(&mut self, digit: u8) -> Result<Place, u8> {
        Ok(Place::Fixed(self.number(usize::from(digit) + 1)?))
    }

    /// The byte after C7, D7 and E7: 4 if it names no register of this width.
    fn register(&mut self, width: Width) -> Result<Register, u8> {
        Register::from_byte(self.byte()?, width).ok_or(number::NOT_LISTED)
    }

    fn near(&mut self, register: u8) -> Result<Place, u8> {
        Ok(Place::Near(register, self.displacement(Width::Byte)?))
    }
}

/// The instruction, from its first byte on.
fn first(code: &mut Code) -> Decoded {
    use Width::{Byte, Long, Word};
    Ok(match code.octal()? {
        (0, 0, 0) => Instruction::Nothing,
        (0, 0, 2) => Instruction::PushStatus,
        (0, 0, 3) => Instruction::PopStatus,
        (0, 0, 6) => match code.byte()? {
            num @ 0..=7 => Instruction::SetLevel(num),
            _ => return NOT_LISTED,
        },
        (0, 0, 7) => Instruction::ReturnFromRequest,
        (0, 1, 4) => Instruction::MoveBank(1),
        (0, 1, 5) => Instruction::MoveBank(3),
        (0, 1, 6) => Instruction::Return,
        (0, 2, 0) => Instruction::Carry(Carry::Zero),
        (0, 2, 1) => Instruction::Carry(Carry::One),
        (0, 2, 2) => Instruction::Carry(Carry::Opposite),
        (0, 2, 3) => Instruction::Carry(Carry::NotZ),
        (0, 2, 6) => Instruction::ExchangeFlags,
        (0, 2, 7) => match code.byte()? {
            num @ 0..=7 => Instruction::SetBank(num),
            _ => return NOT_LISTED,
        },
        (0, 3, 0) => Instruction::PushFlags,
        (0, 3, 1) => Instruction::PopFlags,
        (0, 3, 2) => Instruction::Jump(ALWAYS, Target::At(code.number(2)?)),
        (0, 3, 3) => Instruction::Jump(ALWAYS, Target::At(code.number(3)?)),
        (0, 3, 4) => Instruction::Call(Target::At(code.number(2)?)),
        (0, 3, 5) => Instruction::Call(Target::At(code.number(3)?)),
        (0, 3, 6) => Instruction::Call(Target::Away(code.displacement(Word)?)),
        (0, 4, register) => load_constant(code, Byte, Register::Short(register))?,
        (0, 6, register) => load_constant(code, Word, Register::Short(register))?,
        (1, 0, register) => load_constant(code, Long, Register::Short(register))?,
        (0, 5, register @ 0..=6) => Instruction::Push(Word, register),
        (0, 7, register @ 0..=6) => Instruction::Push(Long, register),
        (1, 1, register @ 0..=6) => Instruction::Pop(Word, register),
        (1, 3, register @ 0..=6) => Instruction::Pop(Long, register),
        (1, half @ 4..=5, low) => relative_jump(code, (half - 4) * 8 + low, Byte)?,
        (1, half @ 6..=7, low) => relative_jump(code, (half - 6) * 8 + low, Word)?,
        (2, 0, register) => pointed(code, Byte, register)?,
        (2, 2, register) => pointed(code, Word, register)?,
        (2, 4, register) => {
            let place = Place::Near(register, 0);
            from_memory(Long, place, code.octal()?)?
        }
        (2, group @ (1 | 3 | 5), register) => {
            let place = code.near(register)?;
            from_memory(width_of(group / 2), place, code.octal()?)?
        }
        (2, 6, register) => to_memory(Place::Near(register, 0), code.octal()?)?,
        (2, 7, register) => {
            let place = code.near(register)?;
            to_memory(place, code.octal()?)?
        }
        (3, group @ (0 | 2 | 4), digit @ 0..=2) => {
            let place = code.fixed(digit)?;
            from_memory(width_of(group / 2), place, code.octal()?)?
        }
        (3, 6, digit @ 0..=2) => {
            let place = code.fixed(digit)?;
            to_memory(place, code.octal()?)?
        }
        (3, group @ (0 | 2 | 4), 7) => {
            let width = width_of(group / 2);
            let register = code.register(width)?;
            on_register(code, width, register)?
        }
        (3, group @ (1 | 3 | 5), register) => {
            on_register(code, width_of(group / 2), Register::Short(register))?
        }
        _ => return NOT_LISTED,
    })
}

/// 0, 1, 2 for byte, word, long, as the groups of codes count them.
fn width_of(count: u8) -> Width {
    match count {
        0 => Width::Byte,
        1 => Width::Word,
        _ => Width::Long,
    }
}

/// The operations in the order of their codes.
fn operation_of(count: u8) -> Operation {
    match count {
        0 => Operation::Add,
        1 => Operation::AddWithCarry,
        2 => Operation::Subtract,
        3 => Operation::SubtractWithCarry,
        4 => Operation::And,
        5 => Operation::ExclusiveOr,
        6 => Operation::Or,
        _ => Operation::Compare,
    }
}

/// Of two high digits (2 or 3, then 0 to 7): which operation the eight codes
/// from 80, 90 .. F0 name, or those from 88, 98 .. F8.
fn operation_at(high: u8, middle: u8) -> Operation {
    operation_of((high - 2) * 4 + middle / 2)
}

fn load_constant(code: &mut Code, width: Width, register: Register) -> Decoded {
    Ok(Instruction::Load {
        width,
        to: Operand::Register(register),
        from: code.constant(width)?,
    })
}

fn relative_jump(code: &mut Code, condition: u8, width: Width) -> Decoded {
    let target = Target::Away(code.displacement(width)?);
    Ok(Instruction::Jump(condition, target))
}

/// After C8+r, D8+r, E8+r, and after C7, D7, E7 and the byte that names r.
fn on_register(code: &mut Code, width: Width, register: Register) -> Decoded {
    let this = Operand::Register(register);
    Ok(match code.octal()? {
        (0, 0, 3) => load_constant(code, width, register)?,
        (0, 1, count @ 0..=3) => {
            // The register is judged before the constant is missed.
            let whole = whole(width, register)?;
            scale(count, whole, code.constant(width)?)
        }
        (0, 7, count) if width == Width::Word => cycle(code, register, count)?,
        (1, count @ 0..=3, other) => scale(count, whole(width, Register::Short(other))?, this),
        (0, 2, sign @ 2..=3) if width != Width::Byte => Instruction::Extend {
            width,
            register,
            keep_sign: sign == 3,
        },
        (1, 4, count) => Instruction::Count {
            width,
            register,
            by: eight_for_zero(count),
        },
        (1, 5, count) => Instruction::Count {
            width,
            register,
            by: -eight_for_zero(count),
        },
        (2, 1, other) => Instruction::Load {
            width,
            to: Operand::short(other),
            from: this,
        },
        (2, 3, other) => Instruction::Load {
            width,
            to: this,
            from: Operand::short(other),
        },
        (3, 1, count) => Instruction::Combine {
            operation: operation_of(count),
            width,
            left: this,
            right: code.constant(width)?,
        },
        (3, 5, 4 | 6) => shift(code, Shift::Left, width, register)?,
        (3, 5, 5) => shift(code, Shift::RightKeepingSign, width, register)?,
        (3, 5, 7) => shift(code, Shift::RightWithZeros, width, register)?,
        (high @ 2..=3, middle @ (0 | 2 | 4 | 6), other) => Instruction::Combine {
            operation: operation_at(high, middle),
            width,
            left: Operand::short(other),
            right: this,
        },
        _ => return NOT_LISTED,
    })
}

/// INC and DEC count 1 to 7 as such and 8 as 0.
fn eight_for_zero(count: u8) -> i64 {
    match count {
        0 => 8,
        _ => i64::from(count),
    }
}

/// The register that a product or a dividend stands in, by its lower half. The
/// codes of no other register are allowed.
fn whole(half: Width, lower: Register) -> Result<(Width, Register), u8> {
    lower.whole(half).ok_or(number::NOT_LISTED)
}

/// MUL, MULS, DIV and DIVS, in the order of their codes.
fn scale(count: u8, (width, to): (Width, Register), by: Operand) -> Instruction {
    Instruction::Scale {
        kind: match count {
            0..=1 => Scale::Multiply,
            _ => Scale::Divide,
        },
        signed: count % 2 == 1,
        width,
        to,
        by,
    }
}

/// 38, 39 and 3A for MINC1, MINC2 and MINC4, 3C, 3D and 3E for MDEC1, MDEC2 and
/// MDEC4; 3B and 3F are none.
fn cycle(code: &mut Code, register: Register, count: u8) -> Decoded {
    let step = match count % 4 {
        0 => 1,
        1 => 2,
        2 => 4,
        _ => return NOT_LISTED,
    };
    Ok(Instruction::Cycle {
        register,
        by: if count < 4 { step } else { -step },
        table: table(code, step)?,
    })
}

/// The number less the step, as a word. It is a power of two, from twice the
/// step to 2^15; a low byte that begins no such number is 4 by itself.
fn table(code: &mut Code, step: i64) -> Result<i64, u8> {
    let powers = (1..=15).map(|n| 1_i64 << n);
    let numbers = powers.filter(|&number| number > step);
    let low = i64::from(code.byte()?);
    let mut begun = numbers.filter(|number| (number - step) % 0x100 == low);
    let least = begun.next().ok_or(number::NOT_LISTED)?;
    let high = i64::from(code.byte()?);
    let mut begun = std::iter::once(least).chain(begun);
    let whole = begun.find(|number| (number - step) / 0x100 == high);
    whole.ok_or(number::NOT_LISTED)
}

/// The byte after EC to EF: 1 to 15 places as such and 16 as 0.
fn shift(code: &mut Code, kind: Shift, width: Width, register: Register) -> Decoded {
    let places = match code.byte()? {
        0 => 16,
        count @ 1..=15 => u32::from(count),
        _ => return NOT_LISTED,
    };
    Ok(Instruction::Shift {
        kind,
        width,
        register,
        places,
    })
}

/// After 80+R and 90+R, the only forms that can also begin a block copy or a
/// block compare.
fn pointed(code: &mut Code, width: Width, register: u8) -> Decoded {
    let round = |digit: u8| Round {
        width,
        downward: digit & 2 != 0,
        repeat: digit & 1 != 0,
    };
    Ok(match (code.octal()?, register) {
        ((0, 2, digit @ 0..=3), 3) => Instruction::CopyRound {
            to: 2,
            from: 3,
            round: round(digit),
        },
        ((0, 2, digit @ 0..=3), 5) => Instruction::CopyRound {
            to: 4,
            from: 5,
            round: round(digit),
        },
        ((0, 2, digit @ 4..=7), 2..=7) => Instruction::CompareRound {
            pointer: register,
            round: round(digit),
        },
        (digits, _) => from_memory(width, Place::Near(register, 0), digits)?,
    })
}

/// After a memory form that names the operand's width.
fn from_memory(width: Width, place: Place, digits: (u8, u8, u8)) -> Decoded {
    let memory = Operand::Memory(place);
    Ok(match digits {
        (0, 4, register) => Instruction::Load {
            width,
            to: Operand::short(register),
            from: memory,
        },
        (high @ 2..=3, middle @ (0 | 2 | 4 | 6), register) => Instruction::Combine {
            operation: operation_at(high, middle),
            width,
            left: Operand::short(register),
            right: memory,
        },
        (high @ 2..=3, middle, register) => Instruction::Combine {
            operation: operation_at(high, middle),
            width,
            left: memory,
            right: Operand::short(register),
        },
        _ => return NOT_LISTED,
    })
}

/// After a memory form that names no width: the stores.
fn to_memory(place: Place, digits: (u8, u8, u8)) -> Decoded {
    let (width, register) = match digits {
        (1, 0, register) => (Width::Byte, register),
        (1, 2, register) => (Width::Word, register),
        (1, 4, register) => (Width::Long, register),
        _ => return NOT_LISTED,
    };
    Ok(Instruction::Load {
        width,
        to: Operand::Memory(place),
        from: Operand::short(register),
    })
}
