//! Batches of trials, done by both machines and compared step by step.

use crate::codes::{self, Code};
use crate::desk::{Desk, Done};
use crate::mame::{Answer, Mame};
use crate::plan::{Batch, Work};
use crate::rows::ROWS;
use crate::seen::Seen;
use crate::tally::Tally;
use crate::trial::{Memories, Trial, MOST};
use crate::wrong::Slip;
use draw::chance::Chance;
use draw::image::hex;
use std::collections::BTreeMap;
use std::io;

/// How often a state is drawn anew for a case before it is given up.
const MOST_DRAWS: u32 = 200;

/// What the witness must have after a step.
struct Expected {
    /// The instruction.
    code: Vec<u8>,
    seen: Seen,
    /// The rows that parted it from what the library leaves.
    rows: Vec<usize>,
    /// What it would have to have for each slip that shows here.
    slips: Vec<(usize, Seen)>,
}

/// What the batches share.
pub struct Setting {
    pub codes: Vec<Code>,
    pub slips: Vec<Slip>,
    pub seed: u64,
}

/// A batch that the library has done.
pub struct Prepared<'a> {
    setting: &'a Setting,
    name: &'a str,
    memories: Memories,
    trials: Vec<(Trial, Vec<Expected>)>,
    refused: u64,
    given_up: u64,
    /// Refusals that there should not be, each with its case.
    wrongly: Vec<String>,
}

impl<'a> Prepared<'a> {
    /// Draws a batch and lets the library do it.
    pub fn new(setting: &'a Setting, batch: &'a Batch) -> Prepared<'a> {
        let mut chance = Chance::for_purpose(setting.seed, &batch.name);
        let memories = match &batch.work {
            Work::Again(memories, _) => memories.clone(),
            _ => Memories::drawn(&mut chance),
        };
        let mut desk = Desk::on(&memories);
        let mut prepared = Prepared {
            setting,
            name: &batch.name,
            memories,
            trials: Vec::new(),
            refused: 0,
            given_up: 0,
            wrongly: Vec::new(),
        };
        prepared.fill(&mut desk, &mut chance, &batch.work);
        prepared
    }

    fn fill(&mut self, desk: &mut Desk, chance: &mut Chance, work: &Work) {
        match work.clone() {
            Work::Steps(range, times) => range.for_each(|index| {
                self.draw_code(desk, times, index, |code, _, bank| code.trial(chance, bank));
            }),
            Work::Repeats(range, times) => range.for_each(|index| {
                self.draw_code(desk, times, index, |code, memories, bank| {
                    code.repeated(chance, memories, bank)
                });
            }),
            Work::Requests(times) => self.draw(desk, times, |_, _| codes::request(chance)),
            Work::Every(every, numbers) => numbers.for_each(|number| {
                self.draw(desk, 1, |_, _| (every.trial)(chance, number));
            }),
            Work::Again(_, trial) => _ = self.settle(desk, trial),
        }
    }

    /// Draws trials of a code, in one bank after another.
    fn draw_code(
        &mut self,
        desk: &mut Desk,
        times: u32,
        index: usize,
        mut drawn: impl FnMut(&Code, &Memories, u8) -> Trial,
    ) {
        let code = &self.setting.codes[index];
        self.draw(desk, times, |memories, time| Trial {
            code: Some(index),
            ..drawn(code, memories, (time % 4) as u8)
        });
    }

    /// Draws so many cases, each anew until it is settled or has to be given up.
    fn draw(
        &mut self,
        desk: &mut Desk,
        times: u32,
        mut drawn: impl FnMut(&Memories, u32) -> Trial,
    ) {
        for time in 0..times {
            let mut draws = 0..MOST_DRAWS;
            let settled = draws.any(|_| {
                let trial = drawn(&self.memories, time);
                self.settle(desk, trial)
            });
            self.given_up += u64::from(!settled);
        }
    }

    /// Lets the library do a trial. Whether it is settled: a step was done, or it was
    /// refused as it should not be.
    fn settle(&mut self, desk: &mut Desk, trial: Trial) -> bool {
        let mut steps = Vec::new();
        let refusal = desk.work(&self.memories, &trial, |done, ours| {
            steps.push(expect(done, ours, &self.setting.slips));
        });
        if !steps.is_empty() {
            self.trials.push((trial, steps));
            return true;
        }
        self.refused += 1;
        let wrongly = refusal.filter(|&number| !trial.may_be_refused_with(number));
        if let Some(number) = wrongly {
            let case = trial.case(&self.memories).text();
            let text = format!("REFUSED with {number} in {}: '{case}'", self.name);
            self.wrongly.push(text);
        }
        wrongly.is_some()
    }

    /// Whether the library did a case of each that was asked for, and refused none that
    /// it should not.
    pub fn is_whole(&self) -> bool {
        self.given_up == 0 && self.wrongly.is_empty()
    }

    /// Hands the batch to the witness.
    pub fn ask(&self, mame: &mut Mame) -> io::Result<()> {
        let trials = self
            .trials
            .iter()
            .map(|(trial, steps)| (trial, steps.len()));
        mame.ask(&self.memories, trials)
    }

    /// Reads the witness's answers and compares.
    pub fn compare(&self, mame: &mut Mame) -> io::Result<Tally> {
        let mut tally = Tally::new(self.setting.slips.len());
        tally.refused = self.refused;
        tally.given_up = self.given_up;
        tally.unexplained = self.wrongly.len() as u64;
        tally.printed = self.wrongly.clone();
        for (trial, steps) in &self.trials {
            tally.count(trial);
            let mut memory: BTreeMap<u32, u8> = trial.bytes_put().collect();
            for (number, expected) in steps.iter().enumerate() {
                let seen = changed(&self.memories, &mut memory, mame.answer()?);
                self.judge(&mut tally, trial, number, expected, &seen);
            }
        }
        Ok(tally)
    }

    fn judge(&self, tally: &mut Tally, trial: &Trial, step: usize, must: &Expected, seen: &Seen) {
        tally.steps += 1;
        for &row in &must.rows {
            tally.rows[row] += 1;
        }
        for (slip, wrong) in &must.slips {
            if wrong != seen {
                tally.slips[*slip].add(|| format!("{}: {}", self.name, hex(&must.code)));
            }
        }
        if *seen == must.seen {
            return;
        }
        tally.unexplained += 1;
        tally.printed.push(format!(
            "DIFFERENCE in {}, step {}, code {}\n{}  to do it again: --case '{}'",
            self.name,
            step + 1,
            hex(&must.code),
            must.seen.differences("must be", seen, "is"),
            trial.case(&self.memories).text()
        ));
    }
}

/// What the witness must have, by what the library leaves and the rows.
fn expect(done: &Done, ours: Seen, slips: &[Slip]) -> Expected {
    let mut seen = ours.clone();
    let mut rows = Vec::new();
    for (number, row) in ROWS.iter().enumerate() {
        if (row.says)(done, &ours).turn_over(done, &mut seen) {
            rows.push(number);
        }
    }
    let slips = slips.iter().enumerate();
    let slips = slips.filter_map(|(number, slip)| Some((number, slip.expect(done, &ours, &seen)?)));
    Expected {
        code: done.code.to_vec(),
        slips: slips.collect(),
        seen,
        rows,
    }
}

/// What the witness has, with the bytes of memory that are not as before; these
/// are put down for the next step. A store where there is no RAM always counts.
fn changed(memories: &Memories, memory: &mut BTreeMap<u32, u8>, answer: Answer) -> Seen {
    let mut seen = answer.seen;
    let stored: BTreeMap<u32, u8> = answer.stored.into_iter().collect();
    for (&address, &byte) in &stored {
        let put = memory.get(&address).copied();
        let before = put.unwrap_or_else(|| memories.byte(address));
        if address as usize >= MOST || before != byte {
            seen.memory.insert(address, byte);
        }
    }
    memory.extend(stored);
    seen
}
