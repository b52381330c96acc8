//! What a group has met: without it, a group that tries nothing would agree.

use crate::judge::{Answer, Judge};
use forms::marks::{self, BOTH};
use std::collections::BTreeSet;

/// How a reader of flags fared.
#[derive(Clone, Copy, Debug, PartialEq, Eq, PartialOrd, Ord)]
pub enum Sort {
    /// With 8, for these marks of F.
    Refused(u8),
    /// With 8, which it would not have been by the marks before.
    CameIn,
    /// Not with 8, which it would have been by the marks before.
    Cleared,
    /// Not with 8, though F has these marks: it does not read them.
    Unread(u8),
}

/// What was met, by the first byte of the reader and the place of its operand.
#[derive(Default)]
pub struct Met(BTreeSet<(u8, usize, Sort)>);

impl Met {
    /// Notes an answer of a reader; `was` is the marks before, `now` those that
    /// it found.
    pub fn note(&mut self, code: &[u8], place: usize, was: u8, now: u8, answer: Answer) {
        let mut note = |sort| self.0.insert((code[0], place, sort));
        match (answer.number, marks::refused(code, was), now & BOTH) {
            (8, before, of_f) => {
                note(Sort::Refused(of_f));
                if !before {
                    note(Sort::CameIn);
                }
            }
            (_, true, _) => {
                note(Sort::Cleared);
            }
            (_, false, 0) => {}
            (_, false, of_f) => {
                note(Sort::Unread(of_f));
            }
        }
    }

    /// A sort was met.
    pub fn expect(&self, judge: &mut Judge, code: &[u8], place: usize, sort: Sort) {
        judge.expect(self.0.contains(&(code[0], place, sort)), || {
            format!("{code:02X?}, place {place}: never {sort:?}")
        });
    }
}
