//! How often a run gave the values of paper 02, Change 4: "A take gives it as v3,
//! and a drain that moves a message does too."

use super::past::{moving, Past};
use engine::{Desk, Step, Values};

/// A rank moves, two or more do, the two ranks have parted before, and one of
/// them has restarted.
const SITUATIONS: usize = 4;

type Counts = [u64; SITUATIONS];

const TAKES: [&str; SITUATIONS] = [
    "takes with a running number while a rank moves",
    "takes with a running number while two or more ranks move",
    "takes with a running number between ranks that have parted",
    "takes with a running number where a rank of the pair has restarted",
];

const DRAINS: [&str; SITUATIONS] = [
    "drains with a running number",
    "drains with a running number while two or more ranks move",
    "drains with a running number between ranks that have parted",
    "drains with a running number where a rank of the pair has restarted",
];

const END_MARKERS: [&str; SITUATIONS] = [
    "drains of an end marker, without a number",
    "drains of an end marker, without a number, while two or more ranks move",
    "drains of an end marker, without a number, between ranks that have parted",
    "drains of an end marker, without a number, where a rank of the pair has restarted",
];

/// The counts, each of accepted steps.
#[derive(Clone, Debug, Default)]
pub struct RunningNumbers {
    takes: Counts,
    drains: Counts,
    end_markers: Counts,
    /// The situations of the step that is being made.
    met: [bool; SITUATIONS],
}

impl RunningNumbers {
    /// Looks at a step that is accepted, before it is made.
    pub fn note_before(&mut self, desk: &Desk, step: Step, past: &Past) {
        if let Step::Take { b: r, a: s } | Step::Drain { r, s } = step {
            let moving = moving(desk);
            let (parted, restarted) = (past.have_parted(r, s), past.has_restarted(r, s));
            self.met = [moving >= 1, moving >= 2, parted, restarted];
        }
    }

    /// Looks at an accepted step after it is made.
    pub fn note_after(&mut self, step: Step, values: Values) {
        let counts = match (step, values) {
            (Step::Take { .. }, [_, _, 1..=u32::MAX]) => &mut self.takes,
            (Step::Drain { .. }, [0, _, 1..=u32::MAX]) => &mut self.drains,
            (Step::Drain { .. }, [1, _, 0]) => &mut self.end_markers,
            _ => return,
        };
        for (count, met) in counts.iter_mut().zip(self.met) {
            *count += u64::from(met);
        }
    }

    /// All counts with what they are counts of.
    pub fn rows(&self) -> Vec<(&'static str, u64)> {
        let names = [TAKES, DRAINS, END_MARKERS].concat();
        let counts = [self.takes, self.drains, self.end_markers].concat();
        names.into_iter().zip(counts).collect()
    }
}
