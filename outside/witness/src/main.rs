//! The proved library held against an emulator of the same core that nobody here
//! wrote: the witness. It runs as a program of its own, started by what stands in
//! FOLDER, and nothing of it is copied.
//!
//! ```text
//! witness FOLDER [--seed N] [--rounds N] [--whole] [--wrong]
//! witness FOLDER --case 'TEXT'
//! witness FOLDER --speed
//! witness FOLDER --theirs LOOP STRETCHES
//! witness --ours LOOP STEPS
//! witness --rows
//! witness --brief
//! ```
//!
//! The first compares; `--rounds` draws the drawn cases that many times over,
//! `--whole` divides every word by every byte too, and `--wrong` sees that wrong
//! answers would show. `--case` does a printed case again. `--speed` times both on the
//! same loops; the next two are for those who count machine instructions. `--rows` prints
//! the table of where the witness parts from the book, as `rows.md` has it. `--brief`
//! asks no witness: it sees that every listed code has a case which the library does.

#![forbid(unsafe_code)]

mod codes;
mod crew;
mod desk;
mod every;
mod hold;
mod loops;
mod mame;
mod operands;
mod plan;
mod rows;
mod seen;
mod speed;
mod tally;
mod trial;
mod wrong;

use crew::side_by_side;
use draw::case::Case;
use hold::{Prepared, Setting};
use mame::Mame;
use plan::{Batch, Work};
use rows::ROWS;
use std::io;
use std::path::Path;
use std::process::ExitCode;
use std::time::{Duration, Instant};
use tally::Tally;
use trial::Trial;

const SEED: u64 = 900;
/// The version that the rows were seen to hold of.
const ROWS_OF: &str = "0.251";

fn main() -> ExitCode {
    let words: Vec<String> = std::env::args().skip(1).collect();
    let words: Vec<&str> = words.iter().map(String::as_str).collect();
    match obey(&words) {
        Ok(true) => ExitCode::SUCCESS,
        Ok(false) => ExitCode::FAILURE,
        Err(trouble) => {
            eprintln!("witness: {trouble}");
            ExitCode::FAILURE
        }
    }
}

fn obey(words: &[&str]) -> io::Result<bool> {
    let done = |()| true;
    match *words {
        ["--rows"] => Ok(print_rows()),
        ["--brief"] => Ok(brief()),
        ["--ours", name, steps] => speed::ours(named(name)?, number(steps)?).map(done),
        [folder, "--speed"] => speed::table(Path::new(folder)).map(done),
        [folder, "--theirs", name, count] => {
            speed::theirs(Path::new(folder), named(name)?, number(count)?).map(done)
        }
        [folder, "--case", text] => again(Path::new(folder), text),
        [folder, ref rest @ ..] if !folder.starts_with('-') => run(Path::new(folder), rest),
        _ => Err(trouble("see the head of its source for what it takes")),
    }
}

/// An error that ends the program.
pub fn trouble(what: &str) -> io::Error {
    io::Error::new(io::ErrorKind::Other, what)
}

fn named(name: &str) -> io::Result<&'static loops::Loop> {
    loops::named(name).ok_or_else(|| trouble(&format!("no loop is called {name}")))
}

fn number<T: std::str::FromStr>(word: &str) -> io::Result<T> {
    let parsed = word.parse();
    parsed.map_err(|_| trouble(&format!("{word} is not a number")))
}

const ROWS_HEAD: &str = "\
# Where the witness parts from the book

The witness is MAME 0.251 (outside/README.md). A row says what the book has and where, and exactly what the witness has
instead. 01 and 02 are the request's documents, 000 and 003 Toshiba's books, with lines of their text as they were given to us.
`witness --rows` printed this.

| Code | The book | The witness |
|---|---|---|";

fn print_rows() -> bool {
    println!("{ROWS_HEAD}");
    for row in ROWS {
        println!("| {} | {} | {} |", row.code, row.book, row.witness);
    }
    true
}

fn setting(seed: u64, wrong: bool) -> Setting {
    Setting {
        codes: codes::listed(),
        slips: if wrong { wrong::slips() } else { Vec::new() },
        seed,
    }
}

fn again(folder: &Path, text: &str) -> io::Result<bool> {
    let case = Case::parse(text).and_then(Trial::of_case);
    let (memories, trial) = case.ok_or_else(|| trouble("this is no case of the witness's"))?;
    let batch = Batch {
        name: "the case".to_string(),
        work: Work::Again(memories, trial),
    };
    let setting = setting(SEED, false);
    let tally = side_by_side(folder, &setting, &[batch])?;
    tell_differences(&tally);
    let (steps, unexplained) = (tally.steps, tally.unexplained);
    println!("witness: {steps} steps compared, {unexplained} differences left unexplained");
    if steps == 0 {
        println!("witness: the library refuses it");
    }
    Ok(unexplained == 0 && steps > 0)
}

/// Compares, and tells how it went.
fn run(folder: &Path, words: &[&str]) -> io::Result<bool> {
    let (mut seed, mut rounds, mut whole, mut wrong) = (SEED, 1, false, false);
    let mut words = words.iter().copied();
    while let Some(word) = words.next() {
        let mut value = || words.next().ok_or_else(|| trouble("a number is missing"));
        match word {
            "--seed" => seed = number(value()?)?,
            "--rounds" => rounds = number(value()?)?,
            "--whole" => whole = true,
            "--wrong" => wrong = true,
            _ => return Err(trouble(&format!("{word} is not known"))),
        }
    }
    let setting = setting(seed, wrong);
    let plan = plan::plan(&setting.codes, rounds, whole);
    println!(
        "witness: seed {seed}, rounds {rounds}, {} batches",
        plan.len()
    );
    let start = Instant::now();
    let reset = reset_agrees(folder)?;
    let tally = side_by_side(folder, &setting, &plan)?;
    tell_differences(&tally);
    tell_rows(&tally);
    let caught = tell_slips(&setting, &tally);
    Ok(tell_all(&setting, &tally, start.elapsed()) && caught && reset)
}

/// Whether both are the same after a reset.
fn reset_agrees(folder: &Path) -> io::Result<bool> {
    let mut mame = Mame::start(folder)?;
    println!("witness: MAME {}", mame.version);
    if mame.version != ROWS_OF {
        println!("witness: the table of rows is of {ROWS_OF}, and may not fit");
    }
    let (rom, seen) = mame.reset()?;
    mame.end()?;
    let ours = desk::reset(&rom).ok_or_else(|| trouble("the library refuses the reset"))?;
    let same = ours == seen;
    match same {
        true => println!("witness: the same after a reset"),
        false => println!(
            "DIFFERENCE after a reset\n{}",
            ours.differences("must be", &seen, "is")
        ),
    }
    Ok(same)
}

fn tell_differences(tally: &Tally) {
    for text in &tally.printed {
        println!("{text}");
    }
}

fn tell_rows(tally: &Tally) {
    for (row, &times) in ROWS.iter().zip(&tally.rows) {
        match times {
            0 => println!("NEVER MET: the row for {}", row.code),
            _ => println!("{times:>9} times: {}", row.code),
        }
    }
}

/// Tells which wrong answers the witness would have shown, and whether all.
fn tell_slips(setting: &Setting, tally: &Tally) -> bool {
    for (slip, seen) in setting.slips.iter().zip(&tally.slips) {
        match seen.times {
            0 => println!("NOT CAUGHT: {}", slip.what),
            times => println!(
                "caught {times} times: {}; first in {}",
                slip.what, seen.first
            ),
        }
    }
    tally.slips.iter().all(|seen| seen.times > 0)
}

/// Tells the figures of a run, and whether it is right.
fn tell_all(setting: &Setting, tally: &Tally, took: Duration) -> bool {
    let (covered, listed) = (tally.codes.len(), setting.codes.len());
    let met = tally.rows.iter().filter(|&&times| times > 0).count();
    println!(
        "witness: {} cases, {} of them requests; {} steps compared; {} draws were refused and drawn anew, {} cases given up",
        tally.cases, tally.requests, tally.steps, tally.refused, tally.given_up
    );
    println!(
        "witness: {covered} of {listed} listed codes covered, each by {} cases or more in each bank; {met} of {} rows met",
        tally.fewest(),
        ROWS.len()
    );
    println!(
        "witness: {} differences left unexplained; {:.0} s",
        tally.unexplained,
        took.as_secs_f64()
    );
    let all_done = covered == listed && tally.fewest() > 0 && tally.given_up == 0;
    tally.unexplained == 0 && all_done && met == ROWS.len()
}

/// Sees, without a witness, that every listed code has a case which the library does
/// in each bank.
fn brief() -> bool {
    let setting = setting(SEED, false);
    let listed = setting.codes.len();
    let batch = Batch {
        name: "brief".to_string(),
        work: Work::Steps(0..listed, 4),
    };
    let whole = Prepared::new(&setting, &batch).is_whole();
    match whole {
        true => println!("witness: each of {listed} listed codes has its cases"),
        false => println!("witness: not every listed code has its cases"),
    }
    whole
}
