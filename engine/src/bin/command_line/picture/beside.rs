//! The second engine beside the proved program. It is held to every line, so
//! that a picture never shows anything but the proved run.

use crate::failure::Failure;
use crate::steps::{Pair, Told};
use engine::refusal::{count_value, number_of, values_of};
use engine::{Desk, Rank};

/// A desk of the second engine that takes the steps of a run.
pub struct Beside {
    desk: Desk,
    record: Vec<u8>,
    pairs: usize,
}

impl Beside {
    /// Beside a run that begins.
    pub fn fresh() -> Beside {
        Beside {
            desk: Desk::fresh(),
            record: Vec::new(),
            pairs: 0,
        }
    }

    /// The desk after the last step.
    pub fn desk(&self) -> &Desk {
        &self.desk
    }

    /// Takes the step of a line, and fails where its answer is another one.
    pub fn step(&mut self, told: &Told) -> Result<(), Failure> {
        // Without a record, at 2 and 3, nothing is done.
        let Some(step) = told.step else {
            return Ok(());
        };
        self.record.clear();
        step.write(&mut self.record);
        let answer = self.desk.step_sound(&self.record, 0).answer;
        let same = number_of(&answer) == told.number && values_of(&answer) == told.values;
        same.then_some(()).ok_or_else(|| differs(&told.text))
    }

    /// Fails where the unread messages of a pair are elsewhere.
    pub fn pair(&mut self, pair: &Pair) -> Result<(), Failure> {
        self.pairs += 1;
        let (sender, receiver) = (pair.sender, pair.receiver);
        let same = sender.in_range()
            && receiver.in_range()
            && self.desk.mail().counts(sender, receiver).map(count_value) == pair.counts;
        same.then_some(()).ok_or_else(|| differs(&pair.to_string()))
    }

    /// Fails where the run has told of fewer or more pairs.
    pub fn end(&self) -> Result<(), Failure> {
        let senders = |receiver| self.desk.mail().senders_to(receiver).len() as usize;
        let unread: usize = Rank::all().map(senders).sum();
        (unread == self.pairs)
            .then_some(())
            .ok_or_else(|| differs("end"))
    }
}

fn differs(line: &str) -> Failure {
    Failure::Told(format!(
        "nothing is drawn: the second engine differs from the proved program at '{line}'"
    ))
}
