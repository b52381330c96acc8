//! What has been compared.

use crate::rows::ROWS;
use crate::trial::Trial;
use draw::case::Call;
use std::collections::HashMap;

/// How often something was seen, and where first.
#[derive(Clone, Default)]
pub struct Sighting {
    pub times: u64,
    pub first: String,
}

impl Sighting {
    pub fn add(&mut self, place: impl FnOnce() -> String) {
        if self.times == 0 {
            self.first = place();
        }
        self.times += 1;
    }

    fn join(&mut self, other: Sighting) {
        if self.times == 0 {
            self.first = other.first;
        }
        self.times += other.times;
    }
}

pub struct Tally {
    pub cases: u64,
    pub steps: u64,
    /// Draws that the library refuses, so that there is nothing to compare.
    pub refused: u64,
    /// Cases for which every draw was refused.
    pub given_up: u64,
    pub requests: u64,
    /// Steps in which the witness has something else than it must have, and refusals
    /// that there should not be.
    pub unexplained: u64,
    /// How often each row was met.
    pub rows: Vec<u64>,
    /// How many cases each listed code has, by its number, in each bank.
    pub codes: HashMap<usize, [u64; 4]>,
    /// How often each slip showed.
    pub slips: Vec<Sighting>,
    pub printed: Vec<String>,
}

impl Tally {
    pub fn new(slips: usize) -> Tally {
        Tally {
            cases: 0,
            steps: 0,
            refused: 0,
            given_up: 0,
            requests: 0,
            unexplained: 0,
            rows: vec![0; ROWS.len()],
            codes: HashMap::new(),
            slips: vec![Sighting::default(); slips],
            printed: Vec::new(),
        }
    }

    pub fn count(&mut self, trial: &Trial) {
        self.cases += 1;
        self.requests += u64::from(matches!(trial.call, Call::Request(..)));
        if let Some(code) = trial.code {
            self.codes.entry(code).or_default()[usize::from(trial.bank())] += 1;
        }
    }

    /// The fewest cases that a code with any has in a bank.
    pub fn fewest(&self) -> u64 {
        let cases = self.codes.values().flatten();
        cases.copied().min().unwrap_or(0)
    }

    pub fn join(&mut self, other: Tally) {
        self.cases += other.cases;
        self.steps += other.steps;
        self.refused += other.refused;
        self.given_up += other.given_up;
        self.requests += other.requests;
        self.unexplained += other.unexplained;
        for (row, times) in self.rows.iter_mut().zip(other.rows) {
            *row += times;
        }
        for (code, cases) in other.codes {
            let so_far = self.codes.entry(code).or_default();
            (0..4).for_each(|bank| so_far[bank] += cases[bank]);
        }
        for (slip, sighting) in self.slips.iter_mut().zip(other.slips) {
            slip.join(sighting);
        }
        self.printed.extend(other.printed);
    }
}
