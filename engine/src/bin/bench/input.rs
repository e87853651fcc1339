//! The inputs, each with a name for the table, and what their records come to.

use crate::looks::looks_log;
use crate::pass::Pass;
use crate::refused::refused_log;
use engine::{Desk, Mail, Rank};

/// A log to measure on.
pub struct Input {
    pub name: &'static str,
    pub log: Vec<u8>,
}

/// The inputs with at least so many records each.
pub fn inputs(records: usize) -> [Input; 5] {
    [
        Input {
            name: "a pass with moves, few unread",
            log: pass_log(records, 5, 17),
        },
        Input {
            name: "a pass with moves, hundreds unread",
            log: pass_log(records, 200, 600),
        },
        Input {
            name: "a pass with moves, nearly 1,024 unread",
            log: pass_log(records, Mail::LIMIT - 24, Mail::LIMIT),
        },
        Input {
            name: "looks, takes and sends at a full desk",
            log: looks_log(records, 4),
        },
        Input {
            name: "refused records",
            log: refused_log(records, 3),
        },
    ]
}

fn pass_log(records: usize, least: usize, most: usize) -> Vec<u8> {
    let mut pass = Pass::joined(Rank::COUNT as u8, least..=most, most as u64);
    pass.run_to(records);
    pass.log
}

/// What the records of a log come to.
#[derive(Default)]
pub struct Counts {
    pub records: u64,
    pub accepted: u64,
    /// The bytes of the state that it leaves; queues keep their room, so it
    /// never took more.
    pub state_bytes: usize,
    unread: u64,
}

impl Counts {
    /// The counts of a log of whole records.
    pub fn of(log: &[u8]) -> Counts {
        let mut counts = Counts::default();
        let mut desk = Desk::fresh();
        let mut position = 0;
        while position < log.len() as u64 {
            let outcome = desk.step_sound(log, position);
            counts.records += 1;
            counts.accepted += u64::from(outcome.answer.is_ok());
            counts.unread += desk.mail().unread() as u64;
            position = outcome.next;
        }
        counts.state_bytes = desk.bytes();
        counts
    }

    pub fn refused(&self) -> u64 {
        self.records - self.accepted
    }

    /// How many messages are unread after a record, on the average.
    pub fn mean_unread(&self) -> u64 {
        self.unread / self.records
    }
}
