//! How fast the proved library steps, beside the second interpreter.
//!
//! ```text
//! bench [--instructions A,B,C,D,E --counted-by HOW]
//! bench --brief
//! bench --mixes
//! bench --kinds
//! bench --only NAME STEPS
//! ```
//!
//! The first prints the table; the counts of machine instructions come from
//! outside, since a program cannot count its own. `--brief` only sees that
//! every mix, every kind, every request and every move works, on both machines
//! alike. The others are for those who count: `--mixes` names the mixes, `--kinds`
//! the kinds and the sizes of each, the requests and the moves among them; `--only`
//! does a mix, or a kind at a size, once.

#![forbid(unsafe_code)]

mod kinds;
mod mixes;
mod scene;
mod turns;

use kinds::kinds;
use library::{Empty, Library};
use mixes::MIXES;
use scene::Scene;
use second::record::{LENGTH, OLD_LENGTH};
use std::process::ExitCode;
use std::time::{Duration, Instant};
use turns::{Deed, Turn, TURNS};

/// How many steps a call is asked for: the most there can be.
const STEPS: u32 = 1_000_000;
const BRIEF_STEPS: u32 = 10_000;
/// How long each machine works at a mix.
const WHILE: Duration = Duration::from_secs(2);
/// The board does 6.25 million of its shortest instructions a second.
const BOARD: f64 = 6_250_000.0;

const LIBRARY: Library = Library {
    empty: Empty::Dangling,
};

fn main() -> ExitCode {
    let words: Vec<String> = std::env::args().skip(1).collect();
    let words: Vec<&str> = words.iter().map(String::as_str).collect();
    let done = match words[..] {
        [] => table(&[], ""),
        ["--brief"] => brief(),
        ["--mixes"] => name_mixes(),
        ["--kinds"] => name_kinds(),
        ["--only", name, steps] => only(name, steps),
        ["--instructions", counts, "--counted-by", how] => {
            table(&counts.split(',').collect::<Vec<_>>(), how)
        }
        _ => Err("bench: see the head of its source for what it takes".to_string()),
    };
    match done {
        Ok(()) => ExitCode::SUCCESS,
        Err(trouble) => {
            eprintln!("{trouble}");
            ExitCode::FAILURE
        }
    }
}

/// One of the two machines at work on a mix, from call to call.
trait Worker {
    fn run(&mut self, steps: u32) -> (u32, u8);
    fn step(&mut self) -> u8;
    fn request(&mut self, level: u32, vector: u32) -> (bool, u8);
    /// Moves the state's old record to the new form, at the start of RAM.
    fn widen(&mut self) -> u8;
    /// Moves the state's record to the old form, at the start of RAM.
    fn narrow(&mut self) -> u8;
}

struct Proved {
    record: [u8; LENGTH],
    ram: Vec<u8>,
    rom: Vec<u8>,
}

impl Proved {
    fn new(scene: Scene) -> Proved {
        Proved {
            record: scene.record(),
            ram: scene.ram,
            rom: scene.rom,
        }
    }
}

impl Worker for Proved {
    fn run(&mut self, steps: u32) -> (u32, u8) {
        let (done, number, _) = LIBRARY.run(&mut self.record, &mut self.ram, &self.rom, steps);
        (done, number)
    }

    fn step(&mut self) -> u8 {
        LIBRARY.step(&mut self.record, &mut self.ram, &self.rom).0
    }

    fn request(&mut self, level: u32, vector: u32) -> (bool, u8) {
        let (record, ram) = (&mut self.record, &mut self.ram);
        let (taken, number, _) = LIBRARY.request(record, ram, &self.rom, level, vector);
        (taken == 1, number)
    }

    fn widen(&mut self) -> u8 {
        LIBRARY.widen(&self.record[..OLD_LENGTH], &mut self.ram[..LENGTH])
    }

    fn narrow(&mut self) -> u8 {
        LIBRARY.narrow(&self.record, &mut self.ram[..OLD_LENGTH])
    }
}

impl Worker for Scene {
    fn run(&mut self, steps: u32) -> (u32, u8) {
        let (done, number, _) = second::run(&mut self.machine, &mut self.ram, &self.rom, steps);
        (done, number)
    }

    fn step(&mut self) -> u8 {
        second::step(&mut self.machine, &mut self.ram, &self.rom).0
    }

    fn request(&mut self, level: u32, vector: u32) -> (bool, u8) {
        let (machine, ram) = (&mut self.machine, &mut self.ram);
        let (taken, number, _) = second::request(machine, ram, &self.rom, level, vector);
        (taken, number)
    }

    fn widen(&mut self) -> u8 {
        second::widen(&self.record()[..OLD_LENGTH], &mut self.ram[..LENGTH])
    }

    fn narrow(&mut self) -> u8 {
        second::narrow(&self.record(), &mut self.ram[..OLD_LENGTH])
    }
}

/// What is measured: the steps of a run, or turns.
enum Task {
    Steps,
    Turns(&'static Turn),
}

impl Task {
    /// Does it so many times, and insists that all of them were done.
    fn work(&self, worker: &mut impl Worker, times: u32, name: &str) -> Result<(), String> {
        match self {
            Task::Steps => work(worker, times, name),
            Task::Turns(turn) => {
                let done = (0..times).all(|_| a_turn(worker, turn));
                done.then_some(())
                    .ok_or(format!("{name}: answered otherwise"))
            }
        }
    }
}

/// Makes the call, and steps if the turn says so: whether all was answered as it
/// has to be.
fn a_turn(worker: &mut impl Worker, turn: &Turn) -> bool {
    match turn.deed {
        Deed::Request {
            level,
            taken,
            returns,
        } => worker.request(level, turns::VECTOR) == (taken, 0) && (!returns || worker.step() == 0),
        Deed::Widen => worker.widen() == 0,
        Deed::Narrow { number, .. } => worker.narrow() == number,
    }
}

/// Runs, and insists that all the steps were done.
fn work(worker: &mut dyn Worker, steps: u32, name: &str) -> Result<(), String> {
    match worker.run(steps) {
        (done, 0) if done == steps => Ok(()),
        (done, number) => Err(format!("{name}: {done} steps, then {number}")),
    }
}

/// Both machines do a task so many times from a scene and end alike.
fn both_alike(scene: &Scene, task: Task, times: u32, name: &str) -> Result<(), String> {
    let mut proved = Proved::new(scene.clone());
    let mut other = scene.clone();
    task.work(&mut proved, times, name)?;
    task.work(&mut other, times, name)?;
    if other.record() == proved.record && other.ram == proved.ram {
        Ok(())
    } else {
        Err(format!("{name}: the two machines end differently"))
    }
}

fn brief() -> Result<(), String> {
    for mix in &MIXES {
        both_alike(&mix.scene(), Task::Steps, BRIEF_STEPS, mix.name)?;
        println!("bench: {} works", mix.name);
    }
    let mut count = 0;
    for kind in kinds() {
        for code in &kind.codes {
            let name = format!("{} {}", kind.name, code.size);
            both_alike(&code.scene(), Task::Steps, kinds::STEPS, &name)?;
            if !code.alone() {
                return Err(format!("{name}: another instruction is met"));
            }
            count += 1;
        }
    }
    println!("bench: {count} instructions work, each by itself");
    for turn in &TURNS {
        let times = kinds::STEPS;
        both_alike(&turn.scene(), Task::Turns(turn), times, turn.name)?;
        println!("bench: {} works", turn.name);
    }
    Ok(())
}

fn name_mixes() -> Result<(), String> {
    for mix in &MIXES {
        println!("{}", mix.name);
    }
    Ok(())
}

fn name_kinds() -> Result<(), String> {
    for kind in kinds() {
        let sizes: Vec<&str> = kind.codes.iter().map(|code| code.size).collect();
        println!("{}:{}", kind.name, sizes.join(" "));
    }
    for turn in &TURNS {
        println!("{}:plain", turn.name);
    }
    Ok(())
}

/// The scene of a mix, or of a kind and a size, and what is done there.
fn task_of(name: &str) -> Option<(Scene, Task)> {
    if let Some(mix) = MIXES.iter().find(|mix| mix.name == name) {
        return Some((mix.scene(), Task::Steps));
    }
    let (kind, size) = name.rsplit_once(' ')?;
    if let Some(turn) = TURNS.iter().find(|turn| turn.name == kind) {
        return (size == "plain").then(|| (turn.scene(), Task::Turns(turn)));
    }
    let kind = kinds().into_iter().find(|known| known.name == kind)?;
    let code = kind.codes.iter().find(|known| known.size == size)?;
    Some((code.scene(), Task::Steps))
}

fn only(name: &str, times: &str) -> Result<(), String> {
    let (scene, task) = task_of(name).ok_or(format!("bench: nothing is called {name}"))?;
    let times = times.parse().map_err(|_| "bench: how many times?")?;
    task.work(&mut Proved::new(scene), times, name)
}

/// Steps a second, from as many calls as fill the time.
fn pace(worker: &mut dyn Worker, name: &str) -> Result<f64, String> {
    work(worker, STEPS, name)?;
    let start = Instant::now();
    let mut steps = 0.0;
    while start.elapsed() < WHILE {
        work(worker, STEPS, name)?;
        steps += f64::from(STEPS);
    }
    Ok(steps / start.elapsed().as_secs_f64())
}

fn table(instructions: &[&str], how: &str) -> Result<(), String> {
    println!(
        "A call does {STEPS} steps. The board does {BOARD} of its shortest instructions a second."
    );
    println!(
        "{:<10} {:>14} {:>14} {:>7} {:>7} {:>13}",
        "mix", "steps/s", "second's", "ratio", "boards", "instructions"
    );
    for (place, mix) in MIXES.iter().enumerate() {
        both_alike(&mix.scene(), Task::Steps, STEPS, mix.name)?;
        let ours = pace(&mut Proved::new(mix.scene()), mix.name)?;
        let others = pace(&mut mix.scene(), mix.name)?;
        println!(
            "{:<10} {:>14.0} {:>14.0} {:>7.2} {:>7.2} {:>13}",
            mix.name,
            ours,
            others,
            ours / others,
            ours / BOARD,
            instructions.get(place).unwrap_or(&"not counted")
        );
    }
    for mix in &MIXES {
        println!("{}: {}", mix.name, mix.what);
    }
    if !how.is_empty() {
        println!("instructions: machine instructions a step, {how}");
    }
    Ok(())
}
