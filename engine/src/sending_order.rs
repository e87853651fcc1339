//! "The order of sending over all pairs is kept in the state for it, in step
//! with each pair's" (paper 02, Change 6): a stamp for each message, and which
//! stamp stands first for each receiver.

use crate::by_pair::ByPair;
use crate::mail::{Mail, RunningNumber};
use crate::names::Rank;

/// When a message was sent among those of all pairs, and by whom: of two, the
/// lesser is that of the message sent first.
#[derive(Clone, Copy, Debug, PartialEq, Eq, PartialOrd, Ord)]
pub(crate) struct Stamp(u64);

impl Stamp {
    /// Stands behind all others, for no message.
    pub const NONE: Stamp = Stamp(u64::MAX);

    const SENDERS: u64 = Rank::COUNT as u64;

    fn sender(self) -> Rank {
        Rank((self.0 % Stamp::SENDERS) as u8)
    }
}

/// Gives each message the stamp behind all that were given.
#[derive(Clone, Debug, Default)]
pub(crate) struct Stamps {
    given: u64,
}

impl Stamps {
    /// No desk gives more: those of a state that is handed in, and what all
    /// pairs can send.
    const MOST: u64 = Mail::LIMIT as u64 + Stamp::SENDERS * Stamp::SENDERS * Self::OF_PAIR;
    const OF_PAIR: u64 = RunningNumber::MAX as u64;

    /// The stamp of a message that this rank sends now.
    pub fn next(&mut self, sender: Rank) -> Stamp {
        let stamp = Stamp(self.given * Stamp::SENDERS + u64::from(sender.0));
        self.given += 1;
        stamp
    }
}

const _: () = assert!(Stamps::MOST < Stamp::NONE.0 / Stamp::SENDERS);

/// The stamp of each pair's first unread message. A look compares these, however
/// many messages stand behind them.
#[derive(Clone, Debug)]
pub(crate) struct Firsts(ByPair<Stamp>);

impl Firsts {
    /// Nothing is unread.
    pub fn none() -> Firsts {
        Firsts(ByPair::all(|| Stamp::NONE))
    }

    /// A message of a pair was taken, and this is the stamp of its next one.
    pub fn note_taken(&mut self, pair: (Rank, Rank), next: Stamp) {
        self.0[pair] = next;
    }

    /// A message of a pair was sent: it is the first where there was none.
    pub fn note_sent(&mut self, pair: (Rank, Rank), stamp: Stamp) {
        self.0[pair] = self.0[pair].min(stamp);
    }

    /// Who sent the message that was sent first of those unread by a receiver.
    /// Halves are laid on each other, so that few comparisons wait for others.
    pub fn sender_to(&self, receiver: Rank) -> Option<Rank> {
        let mut least = *self.0.of_receiver(receiver);
        let mut width = Rank::COUNT;
        while width > 1 {
            width /= 2;
            for index in 0..width {
                least[index] = least[index].min(least[index + width]);
            }
        }
        (least[0] != Stamp::NONE).then(|| least[0].sender())
    }
}
