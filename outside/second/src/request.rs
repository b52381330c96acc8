//! A request for an interrupt, offered between two steps.

use crate::execute::check;
use crate::machine::{address, Machine, ADDRESSES, XSP};
use crate::memory::Memories;
use crate::number;
use crate::refusal::Refusal;
use crate::width::{gather, scatter, Width};
use std::ops::RangeInclusive;

/// The levels that a request may have.
const LEVELS: RangeInclusive<u32> = 1..=7;

/// How many bytes a request pushes and RETI pops: SR, and the counter above
/// it.
pub(crate) const FRAME: usize = 6;
/// How many bytes a vector has.
const VECTOR: usize = 4;

/// Offers a request of a level, whose vector is at an address: whether it was
/// taken, the number, and the address that goes with that. A request that is
/// not taken has number 0 and changes nothing; nor does one that is refused.
pub fn request(
    machine: &mut Machine,
    ram: &mut [u8],
    rom: &[u8],
    level: u32,
    vector: u32,
) -> (bool, u8, u32) {
    match whole_request(machine, Memories { ram, rom }, level, vector) {
        Ok(taken) => (taken, number::DONE, 0),
        Err(refusal) => (false, refusal.number, refusal.at),
    }
}

/// What is given is judged before the level is held against the mask, and the
/// vector is read before the stack is looked at. As a step, it works on a copy
/// and stores last.
fn whole_request(
    machine: &mut Machine,
    mut memories: Memories,
    level: u32,
    vector: u32,
) -> Result<bool, Refusal> {
    check(machine, memories.ram, memories.rom)?;
    if !LEVELS.contains(&level) || i64::from(vector) >= ADDRESSES {
        return Err(number::BAD_REQUEST.into());
    }
    if level < least_taken(machine) {
        return Ok(false);
    }
    let target = gather(memories.bytes(vector, VECTOR)?);
    let mut next = machine.clone();
    next.shove(Width::Long, XSP, -(FRAME as i64));
    let stack = address(i64::from(next.get(Width::Long, XSP)));
    memories.store_bytes(stack, &frame(machine))?;
    next.level = mask_after(level);
    next.nesting = count_on(machine.nesting, 1);
    next.counter = address(i64::from(target));
    *machine = next;
    Ok(true)
}

/// The lowest level that is taken: the mask, but 0 counts as 1.
fn least_taken(machine: &Machine) -> u32 {
    u32::from(machine.level).max(1)
}

/// One above the level that was taken; above 7 there is none.
fn mask_after(level: u32) -> u8 {
    (level + 1).min(7) as u8
}

/// What is pushed: SR as it is before the mask changes, with 0 for a marked
/// flag, and above it the counter in four bytes.
fn frame(machine: &Machine) -> [u8; FRAME] {
    let mut frame = [0; FRAME];
    let (status, counter) = frame.split_at_mut(Width::Word.bytes());
    scatter(machine.status(), status);
    scatter(machine.counter, counter);
    frame
}

/// The nesting count, one more or one less; it goes round at 16 bits.
pub(crate) fn count_on(nesting: u16, by: i64) -> u16 {
    Width::Word.round(i64::from(nesting) + by) as u16
}
