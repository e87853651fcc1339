//! A log of one pair, written down together with what its lines must say, so
//! that a log that is made for a situation cannot miss it unnoticed.

use crate::log::{log_of, sends, value_of};
use engine::run_slice;
use std::ops::Range;

/// Senders and receivers of scripts.
pub const PAIRS: [(u8, u8); 5] = [(0, 1), (1, 0), (15, 14), (0, 15), (7, 8)];

/// What the printed run shows at the end of a beginning of the log.
pub struct Stop {
    /// How long that beginning is.
    pub length: usize,
    /// The pair's counts at places 0 to 3.
    pub counts: [u32; 4],
}

/// A log in which a sender's messages go to a receiver, each with its own value.
pub struct Script {
    pub sender: u8,
    pub receiver: u8,
    pub log: Vec<u8>,
    /// For each step its number, v1, v2 and v3.
    pub answers: Vec<[u32; 4]>,
    pub stops: Vec<Stop>,
    sent: u32,
    taken: u32,
}

impl Script {
    /// Nothing yet.
    pub fn of(sender: u8, receiver: u8) -> Script {
        Script {
            sender,
            receiver,
            log: Vec::new(),
            answers: Vec::new(),
            stops: Vec::new(),
            sent: 0,
            taken: 0,
        }
    }

    /// Goes on with steps, each with its number and values behind a colon, as
    /// "land R: 0 1024 0 0". S is the sender, R the receiver, T a third rank.
    pub fn steps(&mut self, steps: &str) {
        let (sender, receiver) = (self.sender, self.receiver);
        let third = (0..).find(|rank| ![sender, receiver].contains(rank));
        let ranks = [('S', sender), ('R', receiver), ('T', third.unwrap())];
        let mut steps = steps.to_owned();
        for (letter, rank) in ranks {
            steps = steps.replace(letter, &rank.to_string());
        }
        for line in steps.split(", ") {
            let (step, answer) = line.split_once(": ").expect("a step has an answer");
            let answer: Vec<u32> = answer.split(' ').map(|n| n.parse().unwrap()).collect();
            self.log.extend(log_of(step));
            self.answers.push(answer.try_into().unwrap());
        }
    }

    /// Goes on with accepted sends of the next so many messages.
    pub fn sends(&mut self, count: u32) {
        let indices = self.sent..self.sent + count;
        self.sent = indices.end;
        self.log
            .extend(sends(self.sender, self.receiver, indices.clone()));
        let unread = indices.map(|index| index + 1 - self.taken);
        self.answers.extend(unread.map(|unread| [0, unread, 0, 0]));
    }

    /// Goes on with accepted takes of the next so many messages.
    pub fn takes(&mut self, count: u32) {
        for _ in 0..count {
            let value = value_of(self.taken);
            self.taken += 1;
            let (left, number) = (self.sent - self.taken, self.taken);
            self.steps(&format!("take R S: 0 {value} {left} {number}"));
        }
    }

    /// Goes on with drains that move the messages with these indices.
    pub fn drains(&mut self, indices: Range<u32>) {
        for index in indices {
            let (value, number) = (value_of(index), index + 1);
            self.steps(&format!("drain R S: 0 0 {value} {number}"));
        }
    }

    /// Stops here for the pair's line with these counts.
    pub fn stop(&mut self, counts: [u32; 4]) {
        let length = self.log.len();
        self.stops.push(Stop { length, counts });
    }

    /// Holds the printed run to what is written down: each step answers so, and
    /// nothing is unread at the end.
    pub fn check(&self, name: &str) {
        let page = String::from_utf8(run_slice(&self.log)).unwrap();
        let lines: Vec<&str> = page.lines().collect();
        let (steps, behind) = lines.split_at(self.answers.len());
        for (line, [number, v1, v2, v3]) in steps.iter().zip(&self.answers) {
            let answer = format!(" {number} {v1} {v2} {v3}");
            assert!(line.ends_with(&answer), "{name}: '{line}', not{answer}");
        }
        assert_eq!(behind, ["end"], "{name}");
    }
}
