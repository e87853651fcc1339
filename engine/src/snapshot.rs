//! The plain state of paper 01, "Names and places", with the running numbers and
//! the order of sending of paper 02, Changes 4 and 6: everything the desk holds,
//! in types wide enough for unsound states too. Soundness is defined on it, and
//! a `Desk` is built from a sound one and written back to one.

use crate::mail::RunningNumber;
use crate::names::{Host, Rank, Vmid};

/// "A rank's standing is unstarted, running, moving or ended."
#[derive(Clone, Copy, Debug, PartialEq, Eq)]
pub enum Standing {
    /// Never started.
    Unstarted,
    /// Runs as one process.
    Running(Vmid),
    /// "A moving rank has a mover (the old process) and an arrival (the new one)."
    Moving {
        /// The old process.
        mover: Vmid,
        /// The new process.
        arrival: Vmid,
    },
    /// "An ended rank keeps its last vmid."
    Ended(Vmid),
}

impl Standing {
    /// "The last three are started."
    pub fn is_started(self) -> bool {
        self != Standing::Unstarted
    }

    /// Whether the rank runs and does not move.
    pub fn is_running(self) -> bool {
        matches!(self, Standing::Running(_))
    }

    /// Whether the rank has a mover and an arrival.
    pub fn is_moving(self) -> bool {
        matches!(self, Standing::Moving { .. })
    }

    /// Whether the rank is ended.
    pub fn is_ended(self) -> bool {
        matches!(self, Standing::Ended(_))
    }

    /// "Its current end is the arrival; otherwise the running process."
    pub fn current_end(self) -> Option<Vmid> {
        match self {
            Standing::Running(vmid) | Standing::Moving { arrival: vmid, .. } => Some(vmid),
            Standing::Unstarted | Standing::Ended(_) => None,
        }
    }
}

/// What a rank has towards another.
#[derive(Clone, Copy, Debug, PartialEq, Eq)]
pub enum Line {
    /// No line.
    None,
    /// A line that stands both ways.
    Plain,
    /// "The other end is a mover that has announced its move."
    Notice,
}

/// What a moving rank waits for from another.
#[derive(Clone, Copy, Debug, PartialEq, Eq)]
pub enum Await {
    /// Nothing.
    None,
    /// "Line not yet closed by the other."
    Unheeded,
    /// "End marker is on the lane to the mover."
    Marked,
}

/// An open call, "with the rank called and the vmid it was posted to".
#[derive(Clone, Copy, Debug, PartialEq, Eq)]
pub struct Call {
    /// The rank called.
    pub called: Rank,
    /// The vmid the call was posted to.
    pub posted: Vmid,
}

/// An unread message.
#[derive(Clone, Copy, Debug, PartialEq, Eq)]
pub struct Message {
    /// The rank that sent it.
    pub sender: Rank,
    /// The rank that has it unread.
    pub receiver: Rank,
    /// The 32-bit value.
    pub value: u32,
    /// The number of its place; the places are 0 to 3.
    pub place: u8,
    /// "The number of a message within its ordered pair, from 1 in order of
    /// sending" (paper 02, Change 4).
    pub number: RunningNumber,
}

/// The whole state. A row of `tables`, `lines` or `awaits` is the holder's, and
/// one of `sent` the sender's; a column is the rank it is about.
#[derive(Clone, Debug, PartialEq, Eq)]
pub struct Snapshot {
    /// Each rank's standing.
    pub standings: [Standing; Rank::COUNT],
    /// "Every rank keeps a table of sixteen vmids."
    pub tables: [[Vmid; Rank::COUNT]; Rank::COUNT],
    /// Each rank's lines to the others.
    pub lines: [[Line; Rank::COUNT]; Rank::COUNT],
    /// Each rank's awaits of the others.
    pub awaits: [[Await; Rank::COUNT]; Rank::COUNT],
    /// "A rank has at most one open call."
    pub calls: [Option<Call>; Rank::COUNT],
    /// The unread messages in order of sending over all pairs (paper 02, Change
    /// 6); each pair's stand in its own order of sending with it.
    pub messages: Vec<Message>,
    /// How many messages each ordered pair has sent.
    pub sent: [[RunningNumber; Rank::COUNT]; Rank::COUNT],
    /// How many numbers were drawn on each host.
    pub drawn: [u32; Host::COUNT],
}

impl Snapshot {
    /// "A fresh desk has no rank started, no messages, no numbers drawn, and
    /// table entries 0.0."
    pub fn fresh() -> Snapshot {
        Snapshot {
            standings: [Standing::Unstarted; Rank::COUNT],
            tables: [[Vmid::UNKNOWN; Rank::COUNT]; Rank::COUNT],
            lines: [[Line::None; Rank::COUNT]; Rank::COUNT],
            awaits: [[Await::None; Rank::COUNT]; Rank::COUNT],
            calls: [None; Rank::COUNT],
            messages: Vec::new(),
            sent: [[0; Rank::COUNT]; Rank::COUNT],
            drawn: [0; Host::COUNT],
        }
    }

    /// The standing of a rank in range.
    pub fn standing(&self, rank: Rank) -> Standing {
        self.standings[rank.index()]
    }

    /// What line `holder` has to `other`.
    pub fn line(&self, holder: Rank, other: Rank) -> Line {
        self.lines[holder.index()][other.index()]
    }

    /// What `holder` awaits of `other`.
    pub fn awaits(&self, holder: Rank, other: Rank) -> Await {
        self.awaits[holder.index()][other.index()]
    }
}
