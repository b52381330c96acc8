//! The proved library and the second interpreter, held against each other.
//!
//! Both are given the same record, memories and call; number, address, count or
//! whether it was taken, record and RAM, or the room for a record that is moved,
//! must be the same afterwards. The second interpreter is unproved; that the two
//! agree proves nothing, but where they differ one is wrong.
//!
//! ```text
//! compare [--seed N] [--rounds N] [--group NAME] [--sparse] [--case 'TEXT']
//! ```
//!
//! `--rounds` draws the drawn cases that many times over; `--group` does one
//! group alone; `--sparse` does a part of what has most steps, for who has to wait
//! for an emulator; `--case` does one printed case again.

#![forbid(unsafe_code)]

mod groups;
mod judge;
mod reference;

use draw::case::Case;
use draw::chance::Chance;
use groups::{Bench, Group, GROUPS};
use judge::{Judge, Tally};
use std::process::ExitCode;
use std::sync::atomic::{AtomicUsize, Ordering};
use std::thread;
use std::time::Instant;

const SEED: u64 = 900;

struct Wish {
    seed: u64,
    rounds: u32,
    group: Option<String>,
    sparse: bool,
    case: Option<String>,
}

fn wish() -> Result<Wish, String> {
    let mut wish = Wish {
        seed: SEED,
        rounds: 1,
        group: None,
        sparse: false,
        case: None,
    };
    let mut words = std::env::args().skip(1);
    while let Some(word) = words.next() {
        if word == "--sparse" {
            wish.sparse = true;
            continue;
        }
        let value = words.next().ok_or(format!("{word} needs a value"))?;
        let bad = |_| format!("{word} takes a number, not {value}");
        match word.as_str() {
            "--seed" => wish.seed = value.parse().map_err(bad)?,
            "--rounds" => wish.rounds = value.parse().map_err(bad)?,
            "--group" => wish.group = Some(value),
            "--case" => wish.case = Some(value),
            _ => return Err(format!("{word} is not known")),
        }
    }
    Ok(wish)
}

fn main() -> ExitCode {
    let right = match wish() {
        Ok(Wish {
            case: Some(text), ..
        }) => replay(&text),
        Ok(wish) => compare(&wish),
        Err(trouble) => {
            eprintln!("compare: {trouble}");
            false
        }
    };
    if right {
        ExitCode::SUCCESS
    } else {
        ExitCode::FAILURE
    }
}

fn replay(text: &str) -> bool {
    match Case::parse(text) {
        Some(case) => Judge::new().replay(&case),
        None => {
            eprintln!("compare: this is no case");
            false
        }
    }
}

fn compare(wish: &Wish) -> bool {
    let sparse = if wish.sparse { ", sparse" } else { "" };
    println!(
        "compare: seed {}, rounds {}{sparse}",
        wish.seed, wish.rounds
    );
    let wanted = |group: &&Group| match &wish.group {
        Some(name) => name == group.0,
        None => true,
    };
    let groups: Vec<&Group> = GROUPS.iter().filter(wanted).collect();
    let judges = side_by_side(&groups, wish);
    let failed = judges.iter().filter(|judge| judge.failures > 0).count();
    let (mut passed, mut failed) = (judges.len() - failed, failed);
    let tallies = judges.iter().map(|judge| judge.tally);
    let all = tallies.fold(Tally::default(), Tally::and);
    tell(&all);
    if wish.group.is_none() {
        let enough = enough(&all, wish.sparse);
        passed += usize::from(enough);
        failed += usize::from(!enough);
    }
    println!("{passed} passed, {failed} failed");
    failed == 0 && passed > 0
}

/// Prints what was compared.
fn tell(all: &Tally) {
    println!(
        "compare: {} steps done by the library; {} single steps, {} runs and {} other calls compared",
        all.done, all.single, all.runs, all.others
    );
    println!(
        "compare: {} requests offered, {} taken and {} not taken",
        all.requests, all.taken, all.left
    );
    let (widened, narrowed) = (all.widened, all.narrowed);
    println!(
        "compare: {} moves compared: {} records widened, {} refused with 2; {} narrowed, {} refused with 2 and {} with 10",
        all.moves(),
        widened.done,
        widened.bad,
        narrowed.done,
        narrowed.bad,
        narrowed.unheld
    );
    println!("compare: numbers 0 to 10 answered {:?} times", all.met);
}

/// Does the groups, as many at a time as there are processors: each hangs on
/// the seed and its name alone.
fn side_by_side(groups: &[&Group], wish: &Wish) -> Vec<Judge> {
    let next = AtomicUsize::new(0);
    let work = || {
        let mut judges = Vec::new();
        while let Some(group) = groups.get(next.fetch_add(1, Ordering::Relaxed)) {
            judges.push(judged(group, wish));
        }
        judges
    };
    let processors = thread::available_parallelism().map_or(1, usize::from);
    thread::scope(|scope| {
        let workers: Vec<_> = (0..processors).map(|_| scope.spawn(work)).collect();
        let ended = |worker: thread::ScopedJoinHandle<'_, Vec<Judge>>| {
            worker.join().expect("a group that ends")
        };
        workers.into_iter().flat_map(ended).collect()
    })
}

/// Does a group, and says how it went.
fn judged(Group(name, work): &Group, wish: &Wish) -> Judge {
    let mut judge = Judge::new();
    let start = Instant::now();
    work(&mut Bench {
        chance: Chance::for_purpose(wish.seed, name),
        judge: &mut judge,
        rounds: wish.rounds,
        sparse: wish.sparse,
    });
    println!(
        "{:>26}: {:>8} single steps, {:>8} steps in all, {:>7} requests, {:>6} moves, {:>5.1} s, {}",
        name,
        judge.tally.single,
        judge.tally.done,
        judge.tally.requests,
        judge.tally.moves(),
        start.elapsed().as_secs_f64(),
        if judge.failures == 0 {
            "agreed"
        } else {
            "FAILED"
        }
    );
    judge
}

/// Whether enough was compared for the agreement to say anything: millions
/// of steps, a million requests, half of them taken, a million moves with each
/// outcome among them, and every number answered.
fn enough(all: &Tally, sparse: bool) -> bool {
    let steps = if sparse { 15_000_000 } else { 80_000_000 };
    let enough = all.done >= steps
        && all.single >= 1_000_000
        && all.requests >= 1_000_000
        && 2 * all.taken >= all.requests
        && all.left >= 50_000
        && all.moves() >= 1_000_000
        && all.widened.done.min(all.widened.bad) >= 50_000
        && all.narrowed.done.min(all.narrowed.bad) >= 50_000
        && all.narrowed.unheld >= 50_000
        && all.met.iter().all(|&times| times > 100);
    if !enough {
        println!("WRONG: too little was compared");
    }
    enough
}
