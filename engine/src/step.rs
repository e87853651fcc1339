//! One step: a record is read at a position of a log, checked and carried out.
//! `step` tests the lent state first (check 1); `Desk::step_sound` is the same
//! for a state known to be sound, as every state of a run from a fresh desk is.

use crate::desk::Desk;
use crate::record::Step;
use crate::refusal::{Answer, Refusal};
use crate::snapshot::Snapshot;

/// What a step gives back besides the state.
#[derive(Clone, Copy, Debug, PartialEq, Eq)]
pub struct Outcome {
    /// Its values, or its refusal.
    pub answer: Answer,
    /// The position after it.
    pub next: u64,
}

impl Desk {
    /// The step at a position of a log, without the test of soundness. "A
    /// refusal leaves the state lent for a step unchanged"; the position
    /// passes the record, except at 2 and 3, where it stays.
    #[inline]
    pub fn step_sound(&mut self, log: &[u8], position: u64) -> Outcome {
        let from = usize::try_from(position).unwrap_or(usize::MAX);
        let rest = log.get(from..).unwrap_or_default();
        match Step::read(rest) {
            Err(refusal) => Outcome {
                answer: Err(refusal),
                next: position,
            },
            Ok((step, length)) => Outcome {
                answer: self.check(step).map(|()| self.apply(step)),
                next: position + length as u64,
            },
        }
    }
}

/// The step at a position of a log, whatever the lent state: an unsound one is
/// refused with 1 before anything is read.
pub fn step(state: &mut Snapshot, log: &[u8], position: u64) -> Outcome {
    let Some(mut desk) = Desk::from_snapshot(state) else {
        return Outcome {
            answer: Err(Refusal::UnsoundState),
            next: position,
        };
    };
    let outcome = desk.step_sound(log, position);
    if outcome.answer.is_ok() {
        *state = desk.snapshot();
    }
    outcome
}
