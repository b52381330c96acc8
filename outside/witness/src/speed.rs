//! How fast the witness's core and the proved library are, on the same loops.
//!
//! The core gets nine tenths of a second of its own time at once, with nothing else
//! of its machine between, and only that is timed. Then the library does the same
//! steps: it must come to the same registers, counter and RAM. (F is left out: there
//! the witness parts from the book.)

use crate::desk::LIBRARY;
use crate::loops::{self, Loop, LOOPS};
use crate::mame::{Mame, Stretch, BOARD_LENGTH, BOARD_RAM};
use crate::trouble;
use second::record::COUNTER;
use std::io;
use std::path::Path;
use std::time::Instant;

/// The most steps of a call.
const CALL: u64 = 1_000_000;
const STRETCHES: u32 = 31;

/// The library at work on a loop, and how many steps it has done.
#[derive(Clone)]
struct Ours {
    record: Vec<u8>,
    ram: Vec<u8>,
    rom: Vec<u8>,
    done: u64,
}

impl Ours {
    fn at_the_start(one: &Loop) -> Ours {
        Ours {
            record: one.record(),
            ram: one.ram(),
            rom: one.rom(),
            done: 0,
        }
    }

    fn run(&mut self, steps: u64) -> io::Result<()> {
        let end = self.done + steps;
        while self.done < end {
            let asked = (end - self.done).min(CALL) as u32;
            let (done, number, _) = LIBRARY.run(&mut self.record, &mut self.ram, &self.rom, asked);
            self.done += u64::from(done);
            if number != 0 {
                return Err(trouble(&format!("the library stops with {number}")));
            }
        }
        Ok(())
    }

    fn is_at(&self, stretch: &Stretch) -> bool {
        let counter = draw::aim::get_long(&self.record, COUNTER);
        counter == stretch.seen.counter
            && self.record[..COUNTER] == stretch.seen.registers
            && self.board_ram() == stretch.ram
    }

    fn board_ram(&self) -> &[u8] {
        &self.ram[BOARD_RAM..][..BOARD_LENGTH]
    }

    /// Runs on until it is where the witness is. It is known how long a turn is, so
    /// only the last one is done step by step.
    fn find(&mut self, turn: u64, stretch: &Stretch) -> io::Result<()> {
        let whole = loops::turns(&stretch.seen.registers).saturating_sub(1) * turn;
        self.run(whole.saturating_sub(self.done))?;
        for _ in 0..2 * turn {
            if self.is_at(stretch) {
                return Ok(());
            }
            self.run(1)?;
        }
        Err(trouble("the library never comes to where the witness is"))
    }
}

/// How many steps a turn of a loop has.
fn turn(one: &Loop) -> io::Result<u64> {
    let mut ours = Ours::at_the_start(one);
    let start = ours.record[COUNTER..].to_vec();
    while ours.done == 0 || ours.record[COUNTER..COUNTER + 4] != start[..4] {
        ours.run(1)?;
    }
    Ok(ours.done)
}

/// Prints a line for each loop: its name, steps a second of the library and of the
/// witness in millions, and how many times as fast the library is. Of the stretches
/// of each the one in the middle counts.
pub fn table(folder: &Path) -> io::Result<()> {
    for one in &LOOPS {
        let (ours, theirs) = paces(folder, one)?;
        let ratio = ours / theirs;
        println!("{} {ours:.1} {theirs:.1} {ratio:.1}", one.name);
    }
    Ok(())
}

fn paces(folder: &Path, one: &Loop) -> io::Result<(f64, f64)> {
    let turn = turn(one)?;
    let mut mame = Mame::start(folder)?;
    let mut ours = Ours::at_the_start(one);
    mame.lay(&ours.record, ours.board_ram(), &ours.rom)?;
    let (mut our_paces, mut their_paces) = (Vec::new(), Vec::new());
    for _ in 0..STRETCHES {
        let stretch = mame.stretch()?;
        let mut there = ours.clone();
        there.find(turn, &stretch)?;
        let steps = there.done - ours.done;
        let begun = Instant::now();
        ours.run(steps)?;
        let millions = steps as f64 / 1e6;
        our_paces.push(millions / begun.elapsed().as_secs_f64());
        their_paces.push(millions / stretch.seconds);
    }
    mame.end()?;
    Ok((middle(our_paces), middle(their_paces)))
}

fn middle(mut paces: Vec<f64>) -> f64 {
    paces.sort_by(f64::total_cmp);
    paces[paces.len() / 2]
}

/// Lets the witness do so many stretches of a loop, and prints how many steps they
/// were: for those who count its machine instructions.
pub fn theirs(folder: &Path, one: &Loop, stretches: u32) -> io::Result<()> {
    let mut mame = Mame::start(folder)?;
    let mut ours = Ours::at_the_start(one);
    mame.lay(&ours.record, ours.board_ram(), &ours.rom)?;
    let mut last = mame.stretch()?;
    for _ in 1..stretches {
        last = mame.stretch()?;
    }
    mame.end()?;
    ours.find(turn(one)?, &last)?;
    println!("{}", ours.done);
    Ok(())
}

/// Lets the library do so many steps of a loop: for those who count its machine
/// instructions.
pub fn ours(one: &Loop, steps: u64) -> io::Result<()> {
    Ours::at_the_start(one).run(steps)
}
