//! What is compared, in batches.

use crate::codes::{self, Code};
use crate::every::{Every, EVERY};
use crate::trial::{Memories, Trial};
use std::ops::Range;

/// How many cases each listed code has in a round, and about how many each kind of
/// instruction has at least.
const EACH_CODE: u32 = 16;
const EACH_KIND: u32 = 2_000;
/// How often each code that may repeat is followed, in a round.
const EACH_REPEAT: u32 = 1_000;
/// How many requests a round has.
const REQUESTS: u32 = 60_000;
/// About how many cases a batch has.
const BATCH: u32 = 4_096;

/// What a batch is of.
#[derive(Clone)]
pub enum Work {
    /// Single steps of these codes, so many of each.
    Steps(Range<usize>, u32),
    /// Several steps of these codes, so many times each.
    Repeats(Range<usize>, u32),
    /// So many requests.
    Requests(u32),
    /// Trials of which none is left out, by their numbers.
    Every(&'static Every, Range<u32>),
    /// A printed case.
    Again(Memories, Trial),
}

pub struct Batch {
    /// It hangs on the seed and this name alone.
    pub name: String,
    pub work: Work,
}

/// All batches of so many rounds.
pub fn plan(codes: &[Code], rounds: u32, whole: bool) -> Vec<Batch> {
    let mut plan = Vec::new();
    let mut first = 0;
    while let Some(code) = codes.get(first) {
        let name = code.name;
        let of_form = codes[first..].iter().take_while(|code| code.name == name);
        let range = first..first + of_form.count();
        first = range.end;
        let least = EACH_KIND * codes::kinds_of(name) as u32 / range.len() as u32;
        let times = rounds * EACH_CODE.max(least);
        lay_out(&mut plan, name, range.clone(), times, Work::Steps);
        if code.may_repeat() {
            let name = format!("{name}, several steps");
            lay_out(&mut plan, &name, range, rounds * EACH_REPEAT, Work::Repeats);
        }
    }
    let requests = rounds * REQUESTS;
    for (part, first) in (0..requests).step_by(BATCH as usize).enumerate() {
        plan.push(Batch {
            name: format!("requests, {part}"),
            work: Work::Requests(BATCH.min(requests - first)),
        });
    }
    for every in EVERY.iter().filter(|every| whole || !every.long) {
        for first in (0..every.count).step_by(BATCH as usize) {
            let end = every.count.min(first + BATCH);
            plan.push(Batch {
                name: format!("{}, {first} on", every.name),
                work: Work::Every(every, first..end),
            });
        }
    }
    plan
}

/// Batches of these codes: some codes at once where each has few cases, and some
/// cases at once where it has many.
fn lay_out(
    plan: &mut Vec<Batch>,
    name: &str,
    codes: Range<usize>,
    times: u32,
    work: fn(Range<usize>, u32) -> Work,
) {
    let at_once = (BATCH / times).max(1) as usize;
    let mut parts = 0..;
    for first in codes.clone().step_by(at_once) {
        let some = first..codes.end.min(first + at_once);
        for done in (0..times).step_by(BATCH as usize) {
            let part = parts.next().expect("no end");
            plan.push(Batch {
                name: format!("{name}, {part}"),
                work: work(some.clone(), BATCH.min(times - done)),
            });
        }
    }
}
