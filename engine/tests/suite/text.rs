//! Logs written as paper 01 writes them, "start 0 0, call 0 1", and desks that
//! have run them. Bytes are made from the tests' own list of kinds, apart from
//! the engine's writer of records.

use crate::step_log::{field_length, record_of, KINDS};
use engine::refusal::number_of;
use engine::{Answer, Desk};

/// Ranks 0 and 1 started on hosts 0 and 1.
pub const TWO: &str = "start 0 0, start 1 1";

/// Ranks 0 and 1 started and joined by a plain line.
pub const JOINED: &str = "start 0 0, start 1 1, call 0 1, route 0 1";

/// The log of these steps.
pub fn log_of(steps: &str) -> Vec<u8> {
    let records = steps.split(", ").filter(|record| !record.is_empty());
    records.flat_map(record_of).collect()
}

/// How many bytes a record has whose first byte this is; none where it is no
/// kind.
pub fn record_length(byte: u8) -> Option<usize> {
    let (.., body) = KINDS.iter().find(|(kind, ..)| *kind == byte)?;
    Some(1 + body.iter().map(|field| field_length(field)).sum::<usize>())
}

/// Runs a log of whole records on a desk, and gives all answers.
pub fn answers_of(desk: &mut Desk, log: &[u8]) -> Vec<Answer> {
    let mut answers = Vec::new();
    let mut position = 0;
    while position < log.len() as u64 {
        let outcome = desk.step_sound(log, position);
        assert!(outcome.next > position, "no whole record at {position}");
        answers.push(outcome.answer);
        position = outcome.next;
    }
    answers
}

/// The desk that an accepted log leaves, from a fresh one.
pub fn desk_after_log(log: &[u8]) -> Desk {
    let mut desk = Desk::fresh();
    let answers = answers_of(&mut desk, log);
    let refused = answers.iter().position(|answer| answer.is_err());
    assert_eq!(refused, None, "a step of the setup is refused");
    desk
}

/// The desk that accepted steps leave, from a fresh one.
pub fn desk_after(steps: &str) -> Desk {
    desk_after_log(&log_of(steps))
}

/// The answer to a last record after accepted steps.
pub fn answer_after(steps: &str, record: &str) -> Answer {
    desk_after(steps).step_sound(&log_of(record), 0).answer
}

/// The number of the answer to a last record after accepted steps.
pub fn number_after(steps: &str, record: &str) -> u8 {
    number_of(&answer_after(steps, record))
}
