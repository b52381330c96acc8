//! What a group has met: without it, a group that tries nothing would agree.

use super::access::{Access, Kind};
use crate::judge::{Answer, Judge};
use std::collections::BTreeSet;

/// How an access was come to.
#[derive(Clone, Copy, Debug, PartialEq, Eq, PartialOrd, Ord)]
pub enum Mode {
    /// By a step.
    Step,
    /// By a run, after other instructions.
    Led,
    /// By a run, after rounds of its own from below.
    Upward,
    /// By a run, after rounds of its own from above.
    Downward,
}

impl Mode {
    pub const ALL: [Mode; 4] = [Mode::Step, Mode::Led, Mode::Upward, Mode::Downward];
}

/// A refusal: its number, and how many bytes its address is behind the
/// operand's first.
pub type Sort = (u8, u32);

#[derive(Default)]
pub struct Met {
    /// By what each sort was met: a kind of access, its size, and a mode.
    sorts: BTreeSet<(Kind, u32, Mode, Sort)>,
    /// The forms that were refused, with what they do.
    forms: BTreeSet<(&'static str, Kind)>,
}

impl Met {
    /// Notes an answer. An address behind the operand's first byte has to be
    /// `end`, where the memory of that byte ends, or it is none of the sorts.
    pub fn note(
        &mut self,
        form: &'static str,
        access: &Access,
        mode: Mode,
        answer: Answer,
        end: u32,
    ) {
        if !matches!(answer.number, 5 | 6) {
            return;
        }
        self.forms.insert((form, access.kind));
        let further = answer.at.wrapping_sub(access.first) & 0xFF_FFFF;
        if further == 0 || answer.at == end {
            let sort = (answer.number, further);
            self.sorts.insert((access.kind, access.size, mode, sort));
        }
    }

    /// A form was refused.
    pub fn expect_form(&self, judge: &mut Judge, form: &'static str, kind: Kind) {
        judge.expect(self.forms.contains(&(form, kind)), || {
            format!("{form}, {kind:?}: never refused")
        });
    }

    /// A sort was met by a kind of access, in a size and a mode.
    pub fn expect(&self, judge: &mut Judge, kind: Kind, size: u32, mode: Mode, sort: Sort) {
        judge.expect(self.sorts.contains(&(kind, size, mode, sort)), || {
            let (number, further) = sort;
            format!("{kind:?} of {size}, {mode:?}: never {number} with the address {further} on")
        });
    }

    /// Any sort was met after rounds of an access's own, in a direction.
    pub fn expect_rounds(&self, judge: &mut Judge, kind: Kind, size: u32, mode: Mode) {
        let met = self
            .sorts
            .iter()
            .any(|&(of, bytes, how, _)| (of, bytes, how) == (kind, size, mode));
        judge.expect(met, || {
            format!("{kind:?} of {size}, {mode:?}: never refused after some rounds")
        });
    }
}
