//! What a run has come to: how many records, which refusals, the moves that
//! are open and the messages that are unread.

use super::counted::or_none;
use super::open_moves::OpenMoves;
use crate::steps::{Pair, Told};
use engine::Refusal;
use std::collections::BTreeMap;

/// The counts of a run so far.
#[derive(Default)]
pub struct Summary {
    accepted: u64,
    /// How many records each refusal refused.
    refused: BTreeMap<Refusal, u64>,
    /// The position of a record that 2 or 3 refused.
    stopped: Option<u64>,
    unread: Vec<Pair>,
}

impl Summary {
    /// Counts a record.
    pub fn add_step(&mut self, told: &Told) {
        match Refusal::from_number(told.number) {
            None => self.accepted += 1,
            Some(refusal) => {
                *self.refused.entry(refusal).or_default() += 1;
                if refusal.keeps_position() {
                    self.stopped = Some(told.position);
                }
            }
        }
    }

    /// Keeps the unread messages of a pair.
    pub fn add_pair(&mut self, pair: Pair) {
        self.unread.push(pair);
    }

    /// The lines of the summary.
    pub fn lines(&self, moves: &OpenMoves) -> Vec<String> {
        let mut lines = vec![self.records()];
        lines.extend(self.refusals());
        lines.extend(self.stopped.map(stop));
        lines.extend(open(moves));
        lines.extend(self.pairs());
        lines
    }

    fn records(&self) -> String {
        let refused = self.refused.values().sum();
        let count = match self.accepted + refused {
            0 => return "No records: the log is empty.".to_owned(),
            1 => "1 record".to_owned(),
            count => format!("{count} records"),
        };
        let (accepted, refused) = (or_none(self.accepted), or_none(refused));
        format!("{count}: {accepted} accepted, {refused} refused.")
    }

    /// A line for each number that was given.
    fn refusals(&self) -> impl Iterator<Item = String> + '_ {
        self.refused.iter().map(|(refusal, count)| {
            let (number, meaning) = (refusal.number(), refusal.meaning());
            format!("{count} refused with {number}: {meaning}.")
        })
    }

    fn pairs(&self) -> Vec<String> {
        if self.unread.is_empty() {
            return vec!["Nothing is unread.".to_owned()];
        }
        self.unread.iter().map(unread).collect()
    }
}

/// How a run ends before the log does.
fn stop(position: u64) -> String {
    format!(
        "The run stopped at position {position}: what stands there was not carried out, \
         and what follows was not read."
    )
}

fn open(moves: &OpenMoves) -> Vec<String> {
    let open: Vec<String> = moves
        .all()
        .map(|(rank, open)| {
            let (rank, host, number) = (rank.0, open.host, open.number);
            format!("The move of rank {rank} to {host}.{number} is still open.")
        })
        .collect();
    if open.is_empty() {
        return vec!["No move is open.".to_owned()];
    }
    open
}

/// The places of unread messages, in their order.
const PLACES: [&str; 4] = [
    "in the mover's list",
    "on the lane to the mover",
    "in the list of the current end",
    "on the lane to the current end",
];

fn unread(pair: &Pair) -> String {
    let placed = pair
        .counts
        .iter()
        .zip(PLACES)
        .filter(|(count, _)| **count > 0);
    let placed: Vec<String> = placed
        .map(|(count, place)| format!("{count} {place}"))
        .collect();
    format!(
        "From rank {} to rank {}: {} unread, {}.",
        pair.sender.0,
        pair.receiver.0,
        pair.counts.iter().sum::<u32>(),
        placed.join(", ")
    )
}
