//! One step, and many.

use crate::arithmetic::{
    add, combine, cycle, divide, extend, multiply, shift, subtract, Operation, Scale,
};
use crate::decode::{decode, Carry, Instruction, Operand, Place, Round, Target};
use crate::flags::{condition, Flags, Marks};
use crate::machine::{address, Machine, BC, XSP};
use crate::memory::{check_lengths, code_from, Memories};
use crate::number;
use crate::refusal::Refusal;
use crate::register::Register;
use crate::request::{count_on, FRAME};
use crate::width::{gather, Width};

/// How many steps a run may be asked for.
pub const MOST_STEPS: u32 = 1_000_000;

type Outcome = Result<(), Refusal>;

/// Does one step and gives its number and its address. Any number but 0 is a
/// refusal, which changes neither the state nor RAM.
pub fn step(machine: &mut Machine, ram: &mut [u8], rom: &[u8]) -> (u8, u32) {
    match whole_step(machine, ram, rom) {
        Ok(()) => (number::DONE, 0),
        Err(refusal) => (refusal.number, refusal.at),
    }
}

/// Does up to `steps` steps: the count of those done, and the number and the
/// address of the one refused, or 0 and 0. 7, 1 and 2 are looked for before
/// any step, even if none is asked for.
pub fn run(machine: &mut Machine, ram: &mut [u8], rom: &[u8], steps: u32) -> (u32, u8, u32) {
    if steps > MOST_STEPS {
        return (0, number::TOO_MANY, 0);
    }
    if let Err(number) = check(machine, ram, rom) {
        return (0, number, 0);
    }
    for done in 0..steps {
        let (number, at) = step(machine, ram, rom);
        if number != number::DONE {
            return (done, number, at);
        }
    }
    (steps, number::DONE, 0)
}

/// Number 1 or 2, where there is something against the memories or the state.
pub(crate) fn check(machine: &Machine, ram: &[u8], rom: &[u8]) -> Result<(), u8> {
    check_lengths(ram, rom)?;
    if machine.valid() {
        Ok(())
    } else {
        Err(number::NOT_VALID)
    }
}

/// The step works on a copy, which takes the state's place only if nothing
/// refused. No instruction stores twice or reads after storing, so RAM is
/// changed only when nothing can refuse any more.
fn whole_step(machine: &mut Machine, ram: &mut [u8], rom: &[u8]) -> Outcome {
    check(machine, ram, rom)?;
    let (instruction, length) = decode(code_from(ram, rom, machine.counter))?;
    let here = machine.counter;
    let mut next = machine.clone();
    next.counter = address(i64::from(here) + length as i64);
    let work = Work {
        here,
        machine: &mut next,
        memories: Memories { ram, rom },
    };
    work.execute(instruction)?;
    *machine = next;
    Ok(())
}

/// What an instruction works on: the copied state, whose counter is already
/// past the instruction, and the memories.
struct Work<'a> {
    here: u32,
    machine: &'a mut Machine,
    memories: Memories<'a>,
}

impl Work<'_> {
    fn execute(mut self, instruction: Instruction) -> Outcome {
        match instruction {
            Instruction::Nothing => {}
            Instruction::MoveBank(by) => self.machine.bank = (self.machine.bank + by) % 4,
            // RFP2 stays 0 whatever is tried, so the low two bits select.
            Instruction::SetBank(num) => self.machine.bank = num % 4,
            Instruction::Carry(carry) => self.set_carry(carry),
            Instruction::ExchangeFlags => self.exchange_flags(),
            Instruction::PushFlags => self.push_flags()?,
            Instruction::PopFlags => {
                let byte = self.pop(Width::Byte)? as u8;
                // Whatever was pushed counts as known.
                let flags = Flags::from_byte(byte, Marks::default());
                self.machine.set_flags(flags);
            }
            Instruction::Load { width, to, from } => {
                let value = self.value(width, from)?;
                self.write(width, to, value)?;
            }
            Instruction::Push(width, register) => {
                self.push(width, self.machine.get(width, register))?
            }
            Instruction::Pop(width, register) => {
                let value = self.pop(width)?;
                self.machine.set(width, register, value);
            }
            Instruction::Jump(cc, target) => {
                let met = condition(cc, self.machine.flags());
                if met.ok_or(number::UNDEFINED)? {
                    self.go(target);
                }
            }
            Instruction::Call(target) => {
                self.push(Width::Long, self.machine.counter)?;
                self.go(target);
            }
            Instruction::Return => {
                let whole = self.pop(Width::Long)?;
                self.go(Target::At(whole));
            }
            Instruction::SetLevel(num) => self.machine.level = num,
            Instruction::PushStatus => self.push_status()?,
            Instruction::PopStatus => {
                let status = self.pop(Width::Word)?;
                self.machine.set_status(status);
            }
            Instruction::ReturnFromRequest => self.return_from_request()?,
            Instruction::Combine {
                operation,
                width,
                left,
                right,
            } => self.combine(operation, width, left, right)?,
            Instruction::Count {
                width,
                register,
                by,
            } => self.count(width, register, by),
            Instruction::Shift {
                kind,
                width,
                register,
                places,
            } => {
                let value = self.machine.read(width, register);
                let (result, flags) = shift(kind, width, value, places);
                self.machine.write(width, register, result);
                self.machine.set_flags(flags);
            }
            Instruction::Extend {
                width,
                register,
                keep_sign,
            } => {
                let value = self.machine.read(width, register);
                let result = extend(width, value, keep_sign);
                self.machine.write(width, register, result);
            }
            Instruction::Scale {
                kind,
                signed,
                width,
                to,
                by,
            } => {
                let by = self.value(width.half(), by)?;
                match kind {
                    Scale::Multiply => self.multiply(width, to, by, signed),
                    Scale::Divide => self.divide(width, to, by, signed),
                }
            }
            Instruction::Cycle {
                register,
                by,
                table,
            } => {
                let value = self.machine.read(Width::Word, register);
                let result = cycle(value, by, table);
                self.machine.write(Width::Word, register, result);
            }
            Instruction::CopyRound { to, from, round } => self.copy_round(to, from, round)?,
            Instruction::CompareRound { pointer, round } => self.compare_round(pointer, round)?,
        }
        Ok(())
    }

    /// The address a place stands for.
    fn locate(&self, place: Place) -> u32 {
        match place {
            Place::Near(register, displacement) => {
                let base = self.machine.get(Width::Long, register);
                address(i64::from(base) + displacement)
            }
            Place::Fixed(at) => at,
        }
    }

    /// The address in a long register.
    fn pointed(&self, register: u8) -> u32 {
        self.locate(Place::Near(register, 0))
    }

    fn value(&self, width: Width, operand: Operand) -> Result<u32, Refusal> {
        match operand {
            Operand::Register(register) => Ok(self.machine.read(width, register)),
            Operand::Constant(value) => Ok(value),
            Operand::Memory(place) => self.memories.read(self.locate(place), width),
        }
    }

    fn write(&mut self, width: Width, operand: Operand, value: u32) -> Outcome {
        match operand {
            Operand::Register(register) => self.machine.write(width, register, value),
            Operand::Memory(place) => self.memories.store(self.locate(place), width, value)?,
            Operand::Constant(_) => unreachable!("no code writes to a constant"),
        }
        Ok(())
    }

    fn push(&mut self, width: Width, value: u32) -> Outcome {
        self.machine
            .shove(Width::Long, XSP, -(width.bytes() as i64));
        self.memories.store(self.pointed(XSP), width, value)
    }

    fn pop(&mut self, width: Width) -> Result<u32, Refusal> {
        let value = self.memories.read(self.pointed(XSP), width)?;
        self.machine.shove(Width::Long, XSP, width.bytes() as i64);
        Ok(value)
    }

    fn go(&mut self, target: Target) {
        self.machine.counter = match target {
            Target::At(place) => address(i64::from(place)),
            Target::Away(distance) => address(i64::from(self.machine.counter) + distance),
        };
    }

    /// The marks go along with their flags.
    fn exchange_flags(&mut self) {
        let machine = &mut *self.machine;
        std::mem::swap(&mut machine.f, &mut machine.f_prime);
        std::mem::swap(&mut machine.marks, &mut machine.marks_prime);
    }

    /// A push reads all of F, so it is refused for either mark, before the
    /// stack is looked at.
    fn push_flags(&mut self) -> Outcome {
        if self.machine.marks.any() {
            return Err(number::UNDEFINED.into());
        }
        self.push(Width::Byte, u32::from(self.machine.f))
    }

    /// SR holds all of F, so the same goes for it.
    fn push_status(&mut self) -> Outcome {
        if self.machine.marks.any() {
            return Err(number::UNDEFINED.into());
        }
        self.push(Width::Word, self.machine.status())
    }

    /// Takes back what an accepted request pushed: SR below, the counter above
    /// it, all of them one operand.
    fn return_from_request(&mut self) -> Outcome {
        let frame = self.memories.bytes(self.pointed(XSP), FRAME)?;
        let (status, counter) = frame.split_at(Width::Word.bytes());
        let (status, counter) = (gather(status), gather(counter));
        self.machine.shove(Width::Long, XSP, FRAME as i64);
        self.machine.set_status(status);
        self.go(Target::At(counter));
        self.machine.nesting = count_on(self.machine.nesting, -1);
        Ok(())
    }

    /// S, Z and V stay, V's mark too; N becomes 0. So does H after RCF and
    /// SCF; the book leaves it undefined after CCF and ZCF.
    fn set_carry(&mut self, carry: Carry) {
        let flags = self.machine.flags();
        let (c, h) = match carry {
            Carry::Zero => (false, Some(false)),
            Carry::One => (true, Some(false)),
            Carry::Opposite => (!flags.c, None),
            Carry::NotZ => (!flags.z, None),
        };
        self.machine.set_flags(Flags {
            h,
            n: false,
            c,
            ..flags
        });
    }

    fn combine(
        &mut self,
        operation: Operation,
        width: Width,
        left: Operand,
        right: Operand,
    ) -> Outcome {
        let carry = self.machine.flags().c;
        let first = self.value(width, left)?;
        let second = self.value(width, right)?;
        let (result, flags) = combine(operation, width, first, second, carry);
        if operation != Operation::Compare {
            self.write(width, left, result)?;
        }
        self.machine.set_flags(flags);
        Ok(())
    }

    /// INC and DEC. Only bytes set flags, and they leave C as it was. Words
    /// and longs leave all flags, and all marks with them.
    fn count(&mut self, width: Width, register: Register, by: i64) {
        let value = self.machine.read(width, register);
        let amount = by.unsigned_abs() as u32;
        let (result, flags) = if by < 0 {
            subtract(width, value, amount, false)
        } else {
            add(width, value, amount, false)
        };
        self.machine.write(width, register, result);
        if width == Width::Byte {
            let c = self.machine.flags().c;
            self.machine.set_flags(Flags { c, ..flags });
        }
    }

    /// MUL and MULS leave all flags, and all marks with them.
    fn multiply(&mut self, width: Width, to: Register, by: u32, signed: bool) {
        let value = self.machine.read(width, to);
        let product = multiply(width, value, by, signed);
        self.machine.write(width, to, product);
    }

    /// DIV and DIVS. V says whether there was no quotient that fits, and then
    /// the register stays as it was. The other flags stay, H's mark too.
    fn divide(&mut self, width: Width, to: Register, by: u32, signed: bool) {
        let value = self.machine.read(width, to);
        let result = divide(width, value, by, signed);
        if let Some(divided) = result {
            self.machine.write(width, to, divided);
        }
        let flags = self.machine.flags();
        self.machine.set_flags(Flags {
            v: Some(result.is_none()),
            ..flags
        });
    }

    /// One element from `from` to `to`; then both pointers move and BC goes
    /// down by one.
    fn copy_round(&mut self, to: u8, from: u8, round: Round) -> Outcome {
        let element = self.memories.read(self.pointed(from), round.width)?;
        self.memories
            .store(self.pointed(to), round.width, element)?;
        self.move_pointer(to, round);
        self.move_pointer(from, round);
        let more = self.count_down();
        let flags = self.machine.flags();
        self.machine.set_flags(Flags {
            h: Some(false),
            v: Some(more),
            n: false,
            ..flags
        });
        self.stay_if(round.repeat && more);
        Ok(())
    }

    /// A or WA against one element; then the pointer moves, past a match
    /// too, and BC goes down by one.
    fn compare_round(&mut self, pointer: u8, round: Round) -> Outcome {
        let element = self.memories.read(self.pointed(pointer), round.width)?;
        let sought = self.machine.get(round.width, accumulator(round.width));
        let (_, compared) = subtract(round.width, sought, element, false);
        self.move_pointer(pointer, round);
        let more = self.count_down();
        let c = self.machine.flags().c;
        self.machine.set_flags(Flags {
            v: Some(more),
            c,
            ..compared
        });
        self.stay_if(round.repeat && more && sought != element);
        Ok(())
    }

    fn move_pointer(&mut self, pointer: u8, round: Round) {
        let size = round.width.bytes() as i64;
        let by = if round.downward { -size } else { size };
        self.machine.shove(Width::Long, pointer, by);
    }

    /// Takes one from BC and says whether anything is left. From 0 it goes
    /// round to FFFFH, so that 0 counts 65,536 rounds.
    fn count_down(&mut self) -> bool {
        self.machine.shove(Width::Word, BC, -1);
        self.machine.get(Width::Word, BC) != 0
    }

    /// A repeating form leaves the counter at itself for the next round.
    fn stay_if(&mut self, again: bool) {
        if again {
            self.machine.counter = self.here;
        }
    }
}

/// The code of A among bytes, of WA among words.
fn accumulator(width: Width) -> u8 {
    match width {
        Width::Byte => 1,
        Width::Word | Width::Long => 0,
    }
}
