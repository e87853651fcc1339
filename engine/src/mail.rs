//! The unread messages: one queue for each ordered pair, how many of its
//! messages are at each place, and how many it has sent. This is paper 01's
//! "lower part that knows no step kinds": it keeps pair order, places, running
//! numbers and the order of sending over all pairs, and asks nothing about
//! ranks.

use crate::by_pair::ByPair;
use crate::names::Rank;
use crate::rank_set::RankSet;
use crate::sending_order::{Firsts, Stamp, Stamps};
use crate::slots::{Slot, Slots, Stored};
use std::hint::select_unpredictable;
use std::iter::{repeat_n, successors};

/// How many messages of one ordered pair are unread, in all or at a place. "The
/// unread count of a pair never passes 1,024. However the lower part holds it
/// now, it is to be counted, kept and handed out there in 16 bits" (paper 02,
/// Change 3).
pub type PairCount = u16;

const _: () = assert!(Mail::LIMIT <= PairCount::MAX as usize);

/// "The number of a message within its ordered pair, from 1 in order of
/// sending" (paper 02, Change 4); and how many messages a pair has sent.
pub type RunningNumber = u32;

/// Where an unread message is; its discriminant is the paper's place.
#[derive(Clone, Copy, Debug, PartialEq, Eq, PartialOrd, Ord)]
#[repr(u8)]
pub enum Place {
    /// The mover's list.
    MoverList = 0,
    /// The lane to the mover.
    MoverLane = 1,
    /// The list of the current end.
    CurrentList = 2,
    /// The lane to the current end.
    CurrentLane = 3,
}

impl Place {
    /// The four places, ascending.
    pub const ALL: [Place; 4] = [
        Place::MoverList,
        Place::MoverLane,
        Place::CurrentList,
        Place::CurrentLane,
    ];
}

/// What a message of a pair holds, wherever it is.
#[derive(Clone, Copy, Debug, PartialEq, Eq)]
pub struct Content {
    /// The 32-bit value.
    pub value: u32,
    /// "Now kept with the message": those of a pair rise, with or without gaps.
    pub number: RunningNumber,
}

/// The unread messages of one ordered pair, and how many it has sent. Within a
/// pair places never fall along the order of sending, so place order is the
/// order of sending: the messages are linked in it, and the counts say where
/// each is.
#[derive(Clone, Copy, Debug, Default)]
struct PairQueue {
    counts: [PairCount; 4],
    /// The first slot at each place that has a message.
    firsts: [Slot; 4],
    /// The slot of the message sent last, where one is unread.
    last: Slot,
    unread: PairCount,
    sent: RunningNumber,
}

impl PairQueue {
    /// The lowest place with a message.
    fn lowest(&self) -> Option<usize> {
        self.counts.iter().position(|&count| count > 0)
    }

    /// Adds the message of a slot behind all others, at no lower place than
    /// theirs. Gives how many there then are.
    fn push(&mut self, slot: Slot, place: Place) -> PairCount {
        let place = place as usize;
        debug_assert!(self.counts[place + 1..].iter().all(|&count| count == 0));
        let first = self.firsts[place];
        self.firsts[place] = select_unpredictable(self.counts[place] == 0, slot, first);
        self.last = slot;
        self.counts[place] += 1;
        self.unread += 1;
        self.unread
    }

    /// Moves all messages at one place to another. Nothing may be at a place
    /// between the two, else places would fall along the order of sending.
    fn shift(&mut self, from: Place, to: Place) -> PairCount {
        let (from, to) = (from as usize, to as usize);
        let between = from.min(to) + 1..from.max(to);
        debug_assert!(self.counts[between].iter().all(|&count| count == 0));
        let moved = std::mem::take(&mut self.counts[from]);
        if moved > 0 && (from < to || self.counts[to] == 0) {
            self.firsts[to] = self.firsts[from];
        }
        self.counts[to] += moved;
        moved
    }
}

/// All unread messages of the desk, and how many each pair has sent. Whether a
/// pair has none cannot be foreseen, so sends and takes don't branch on it.
#[derive(Clone, Debug)]
pub struct Mail {
    queues: Box<ByPair<PairQueue>>,
    slots: Box<Slots>,
    /// For each receiver, the senders whose queue is not empty.
    waiting: [RankSet; Rank::COUNT],
    firsts: Firsts,
    stamps: Stamps,
    unread: usize,
}

impl Mail {
    /// "At most 1,024 are unread in the whole desk."
    pub const LIMIT: usize = 1_024;

    /// No pair sends more: "28 for a send when the pair has already sent
    /// 4,294,967,295" (paper 02, Change 4).
    pub const MOST_SENT: RunningNumber = 4_294_967_295;

    /// No messages, and none sent.
    pub fn empty() -> Mail {
        Mail {
            queues: Box::new(ByPair::all(PairQueue::default)),
            slots: Box::new(Slots::all_empty()),
            waiting: [RankSet::EMPTY; Rank::COUNT],
            firsts: Firsts::none(),
            stamps: Stamps::default(),
            unread: 0,
        }
    }

    /// How many bytes all of it takes.
    pub fn bytes(&self) -> usize {
        size_of_val(self) + size_of_val(&*self.queues) + size_of_val(&*self.slots)
    }

    /// How many messages are unread in the whole desk.
    pub fn unread(&self) -> usize {
        self.unread
    }

    /// How many messages from `sender` to `receiver` are unread.
    pub fn unread_between(&self, sender: Rank, receiver: Rank) -> PairCount {
        self.queues[(sender, receiver)].unread
    }

    /// How many messages `sender` has sent to `receiver`, read or unread: the
    /// running number of the last.
    pub fn sent(&self, sender: Rank, receiver: Rank) -> RunningNumber {
        self.queues[(sender, receiver)].sent
    }

    /// The ranks with a message unread by `receiver`.
    pub fn senders_to(&self, receiver: Rank) -> RankSet {
        self.waiting[receiver.index()]
    }

    /// "The sender of the message sent first of all those unread by r, whatever
    /// its place" (paper 02, Change 6).
    pub fn oldest_sender_to(&self, receiver: Rank) -> Option<Rank> {
        self.firsts.sender_to(receiver)
    }

    /// How many messages of a pair are at each place.
    pub fn counts(&self, sender: Rank, receiver: Rank) -> [PairCount; 4] {
        self.queues[(sender, receiver)].counts
    }

    /// The messages of a pair in place order, each with its place.
    pub fn unread_of_pair(
        &self,
        sender: Rank,
        receiver: Rank,
    ) -> impl Iterator<Item = (Content, Place)> + '_ {
        let counts = self.counts(sender, receiver);
        let places = Place::ALL
            .into_iter()
            .flat_map(move |place| repeat_n(place, usize::from(counts[place as usize])));
        let stored = self.stored_of_pair(sender, receiver);
        stored.map(|message| message.content).zip(places)
    }

    /// The stamps of the messages of a pair in place order.
    pub(crate) fn stamps_of_pair(
        &self,
        sender: Rank,
        receiver: Rank,
    ) -> impl Iterator<Item = Stamp> + '_ {
        let stored = self.stored_of_pair(sender, receiver);
        stored.map(|message| message.stamp)
    }

    fn stored_of_pair(&self, sender: Rank, receiver: Rank) -> impl Iterator<Item = Stored> + '_ {
        let queue = &self.queues[(sender, receiver)];
        let first = queue.lowest().map(|place| queue.firsts[place]);
        successors(first, |&slot| Some(self.slots.next(slot)))
            .take(usize::from(queue.unread))
            .map(|slot| self.slots.stored(slot))
    }

    /// Adds a message with a value and the pair's next running number as the
    /// last of its pair and of all. The desk may not be full, the pair may not
    /// have sent `MOST_SENT`, and no message of it may be at a higher place.
    /// Gives how many the pair then has.
    pub fn append(&mut self, sender: Rank, receiver: Rank, value: u32, place: Place) -> PairCount {
        let queue = &mut self.queues[(sender, receiver)];
        queue.sent += 1;
        let number = queue.sent;
        self.put_last(sender, receiver, Content { value, number }, place)
    }

    /// Puts a message with its number behind the others of its pair, at no lower
    /// place than theirs, and behind those of all pairs; the count sent stays.
    /// Gives how many the pair then has.
    pub(crate) fn put_last(
        &mut self,
        sender: Rank,
        receiver: Rank,
        content: Content,
        place: Place,
    ) -> PairCount {
        debug_assert!(self.unread < Mail::LIMIT);
        let stamp = self.stamps.next(sender);
        let slot = self.slots.put(Stored { content, stamp });
        let queue = &mut self.queues[(sender, receiver)];
        self.unread += 1;
        self.waiting[receiver.index()].insert(sender);
        self.firsts.note_sent((sender, receiver), stamp);
        let before = select_unpredictable(queue.unread == 0, slot, queue.last);
        self.slots.link(before, slot);
        queue.push(slot, place)
    }

    /// Sets how many messages a pair has sent.
    pub(crate) fn set_sent(&mut self, sender: Rank, receiver: Rank, sent: RunningNumber) {
        self.queues[(sender, receiver)].sent = sent;
    }

    /// Takes out the first message of a pair in place order, and gives it and
    /// how many the pair then has.
    pub fn take_first(&mut self, sender: Rank, receiver: Rank) -> Option<(Content, PairCount)> {
        let queue = &mut self.queues[(sender, receiver)];
        let place = queue.lowest()?;
        let (taken, next) = self.slots.take(queue.firsts[place]);
        queue.firsts[place] = next;
        queue.counts[place] -= 1;
        queue.unread -= 1;
        self.unread -= 1;
        let emptied = queue.unread == 0;
        let first = self.slots.stored(next).stamp;
        let first = select_unpredictable(emptied, Stamp::NONE, first);
        self.firsts.note_taken((sender, receiver), first);
        let waiting = &mut self.waiting[receiver.index()];
        *waiting = select_unpredictable(emptied, waiting.without(sender), *waiting);
        Some((taken.content, queue.unread))
    }

    /// Moves all messages of a pair at one place to another with nothing
    /// between, and gives how many moved.
    pub fn shift(&mut self, sender: Rank, receiver: Rank, from: Place, to: Place) -> PairCount {
        self.queues[(sender, receiver)].shift(from, to)
    }

    /// Moves the first message of a pair on the lane to the mover into the
    /// mover's list, and gives it.
    pub fn list_first_of_mover_lane(&mut self, sender: Rank, receiver: Rank) -> Option<Content> {
        let queue = &mut self.queues[(sender, receiver)];
        let [listed, on_lane, ..] = &mut queue.counts;
        *on_lane = on_lane.checked_sub(1)?;
        let [first_listed, first_on_lane, ..] = &mut queue.firsts;
        let slot = *first_on_lane;
        if *listed == 0 {
            *first_listed = slot;
        }
        *listed += 1;
        *first_on_lane = self.slots.next(slot);
        Some(self.slots.stored(slot).content)
    }
}
