//! What a picture shows of a run: its steps, and the processes, messages and
//! end markers that they are about.
//!
//! A row is a step, counted from 1. What began before the steps that are drawn
//! has row 0; what does not end among them has the row `OPEN`.

use crate::steps::Told;
use engine::{Place, Rank, Step, Vmid};

/// The row of what does not come any more.
pub const OPEN: usize = usize::MAX;

/// The steps that are drawn, and all that they touch.
pub struct Story {
    /// The number in the run of the first step, counted from 1.
    pub first: u64,
    pub rows: Vec<Told>,
    /// The processes of each rank in the order in which they began.
    pub processes: Vec<Process>,
    pub tracks: Vec<Track>,
    /// For each receiver, the messages that stay unread and are not drawn:
    /// none of these steps sends, drains or takes one of them.
    pub untouched: [usize; Rank::COUNT],
}

/// A process, with the rows of its life.
pub struct Process {
    pub rank: Rank,
    pub vmid: Vmid,
    /// Which of the two places in its rank's column it has: an arrival has
    /// the one that the mover does not have.
    pub slot: usize,
    pub from: usize,
    /// From here on it runs; before, it is an arrival.
    pub runs: usize,
    /// From here on it is a mover.
    pub moves: usize,
    pub to: usize,
    /// Whether it is gone because its rank has ended.
    pub ended: bool,
}

/// A message, or an end marker, from its send until it is read.
pub struct Track {
    pub sender: Rank,
    pub receiver: Rank,
    /// An end marker has none.
    pub value: Option<u32>,
    /// The places that it comes to, each with its row; at least one.
    pub stays: Vec<(usize, Place)>,
    /// Where it is read.
    pub to: usize,
    /// Whether one of the steps is about this one.
    pub touched: bool,
}

impl Story {
    /// The rows with their steps.
    pub fn steps(&self) -> impl Iterator<Item = (usize, &Told)> {
        (1..).zip(&self.rows)
    }

    /// The accepted step of a row.
    pub fn accepted(&self, row: usize) -> Option<Step> {
        let told = self.rows.get(row.checked_sub(1)?)?;
        told.step.filter(|_| told.number == 0)
    }

    /// The ranks that the steps name, ascending.
    pub fn ranks(&self) -> Vec<Rank> {
        let steps = self.rows.iter().filter_map(|told| told.step);
        let named: Vec<Rank> = steps.flat_map(Step::ranks).collect();
        Rank::all().filter(|rank| named.contains(rank)).collect()
    }

    /// The process that a rank acts with in a row: its current end, and its
    /// old process in the row of its move.
    pub fn acting(&self, rank: Rank, row: usize) -> Option<&Process> {
        let mut latest = self.processes.iter().rev();
        latest.find(|process| process.rank == rank && process.from < row && process.to >= row)
    }

    /// The mover of a rank that moves, and else its process.
    pub fn mover(&self, rank: Rank, row: usize) -> Option<&Process> {
        let mut earliest = self.processes.iter();
        earliest.find(|process| process.rank == rank && process.from < row && process.to >= row)
    }

    /// A process by its name, where it lives in a row.
    pub fn living(&self, vmid: Vmid, row: usize) -> Option<&Process> {
        let mut processes = self.processes.iter();
        processes.find(|process| process.vmid == vmid && process.from <= row && process.to >= row)
    }
}

impl Track {
    /// The row in which it was sent.
    pub fn from(&self) -> usize {
        self.stays[0].0
    }

    /// The place where it is at last.
    pub fn last_place(&self) -> Place {
        self.stays[self.stays.len() - 1].1
    }
}
