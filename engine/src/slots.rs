//! Room for as many messages as a desk can have unread, all in one piece: a
//! message stays in its slot until it is taken, and each slot knows the next one
//! of its pair.

use crate::mail::{Content, Mail};
use crate::sending_order::Stamp;
use std::array;

/// The number of a slot.
pub(crate) type Slot = u16;

const _: () = assert!(Mail::LIMIT <= Slot::MAX as usize);

/// A message in its slot.
#[derive(Clone, Copy, Debug)]
pub(crate) struct Stored {
    pub content: Content,
    pub stamp: Stamp,
}

/// The slots. Those without a message are linked to each other, the one that was
/// emptied last in front, so that a desk with few unread touches few of them. A
/// link behind the last of a pair leads to any slot.
#[derive(Clone, Debug)]
pub(crate) struct Slots {
    stored: [Stored; Mail::LIMIT],
    next: [Slot; Mail::LIMIT],
    empty: Slot,
}

impl Slots {
    /// No slot has a message.
    pub fn all_empty() -> Slots {
        let content = Content {
            value: 0,
            number: 0,
        };
        let stamp = Stamp::NONE;
        Slots {
            stored: [Stored { content, stamp }; Mail::LIMIT],
            next: array::from_fn(|slot| ((slot + 1) % Mail::LIMIT) as Slot),
            empty: 0,
        }
    }

    /// What is in a slot.
    pub fn stored(&self, slot: Slot) -> Stored {
        self.stored[usize::from(slot)]
    }

    /// The next slot of the same pair.
    pub fn next(&self, slot: Slot) -> Slot {
        self.next[usize::from(slot)]
    }

    /// Makes a slot the next of another one of its pair.
    pub fn link(&mut self, slot: Slot, next: Slot) {
        self.next[usize::from(slot)] = next;
    }

    /// Puts a message into an empty slot, of which there must be one.
    pub fn put(&mut self, message: Stored) -> Slot {
        let slot = self.empty;
        self.empty = self.next(slot);
        self.stored[usize::from(slot)] = message;
        slot
    }

    /// Empties a slot, and gives its message and the next slot of its pair.
    pub fn take(&mut self, slot: Slot) -> (Stored, Slot) {
        let next = self.next(slot);
        self.link(slot, self.empty);
        self.empty = slot;
        (self.stored(slot), next)
    }
}
