//! A log to compare on, with a name for reports and the way it is handed to
//! the program; and how such logs are made.

use crate::step_log::record_of;
use engine::proposals::{Mix, Proposer};
use engine::{Desk, Step};
use std::ops::Range;

/// How a log comes to the program's standard input.
#[derive(Clone, Copy, Debug)]
pub enum Feed {
    /// Through a pipe, at once.
    Pipe,
    /// Through a pipe, in pieces of so many bytes with pauses between.
    Pieces(usize),
    /// Through a pipe, in pieces of 1, 2, 3 and 7 bytes in turn with pauses
    /// between.
    Uneven,
    /// From a file.
    File,
}

impl Feed {
    /// The feed of one of many logs: mostly at once or from a file.
    pub fn in_turn(index: usize) -> Feed {
        match index % 64 {
            0 => Feed::Uneven,
            odd if odd % 2 == 1 => Feed::File,
            _ => Feed::Pipe,
        }
    }

    /// The lengths of the pieces in which a log comes through a pipe, in turn;
    /// none where it comes from a file.
    pub fn pieces(self, log: &[u8]) -> Option<Vec<usize>> {
        match self {
            Feed::Pipe => Some(vec![log.len()]),
            Feed::Pieces(length) => Some(vec![length]),
            Feed::Uneven => Some(vec![1, 2, 3, 7]),
            Feed::File => None,
        }
    }
}

/// A log to compare on.
#[derive(Clone, Debug)]
pub struct Log {
    pub name: String,
    pub bytes: Vec<u8>,
    pub feed: Feed,
}

impl Log {
    pub fn new(name: impl Into<String>, bytes: Vec<u8>, feed: Feed) -> Log {
        Log {
            name: name.into(),
            bytes,
            feed,
        }
    }
}

/// The log of steps written as the paper writes them, "start 0 0, call 0 1".
pub fn log_of(steps: &str) -> Vec<u8> {
    steps.split(", ").flat_map(record_of).collect()
}

/// The value of a pair's message by its index in the order of sending; all
/// differ.
pub fn value_of(index: u32) -> u32 {
    index.wrapping_mul(0x9E37_79B9)
}

/// The sends of a pair's messages with these indices.
pub fn sends(sender: u8, receiver: u8, indices: Range<u32>) -> Vec<u8> {
    let steps = indices.map(|index| format!("send {sender} {receiver} {}", value_of(index)));
    steps.flat_map(|step| log_of(&step)).collect()
}

/// Where the whole records of a log start, up to one that is none.
pub fn record_starts(log: &[u8]) -> Vec<usize> {
    let mut starts = Vec::new();
    let mut position = 0;
    while let Ok((_, length)) = Step::read(&log[position..]) {
        starts.push(position);
        position += length;
    }
    starts
}

/// The desk that a log of whole records leaves.
pub fn desk_after(log: &[u8]) -> Desk {
    let mut desk = Desk::fresh();
    let mut position = 0;
    while position < log.len() as u64 {
        position = desk.step_sound(log, position).next;
    }
    desk
}

/// Goes on from a log of whole records with so many pseudo-random ones.
pub fn append_random(log: &mut Vec<u8>, seed: u64, mix: Mix, records: usize) {
    let mut proposer = Proposer::new(seed, mix);
    let mut desk = desk_after(log);
    for _ in 0..records {
        let position = log.len() as u64;
        proposer.propose(&desk).write(log);
        desk.step_sound(log, position);
    }
}
