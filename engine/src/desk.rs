//! The state of paper 01, "Names and places", kept for speed: lines and awaits
//! as sets of ranks, messages as queues of pairs, all updated in place. Only
//! sound states have a desk.

use crate::mail::{Content, Mail, Place};
use crate::names::{Host, Rank, Vmid};
use crate::rank_set::RankSet;
use crate::snapshot::{Await, Call, Line, Message, Snapshot, Standing};
use crate::sound::is_sound;

/// A sound state. Each set belongs to the rank that indexes it: `plain` and
/// `notice` are its lines, `unheeded` and `marked` its awaits.
#[derive(Clone, Debug)]
pub struct Desk {
    pub(crate) standings: [Standing; Rank::COUNT],
    pub(crate) tables: [[Vmid; Rank::COUNT]; Rank::COUNT],
    pub(crate) plain: [RankSet; Rank::COUNT],
    pub(crate) notice: [RankSet; Rank::COUNT],
    pub(crate) unheeded: [RankSet; Rank::COUNT],
    pub(crate) marked: [RankSet; Rank::COUNT],
    pub(crate) calls: [Option<Call>; Rank::COUNT],
    pub(crate) mail: Mail,
    pub(crate) drawn: [u16; Host::COUNT],
}

impl Desk {
    /// "A fresh desk has no rank started, no messages, no numbers drawn, and
    /// table entries 0.0."
    pub fn fresh() -> Desk {
        Desk {
            standings: [Standing::Unstarted; Rank::COUNT],
            tables: [[Vmid::UNKNOWN; Rank::COUNT]; Rank::COUNT],
            plain: [RankSet::EMPTY; Rank::COUNT],
            notice: [RankSet::EMPTY; Rank::COUNT],
            unheeded: [RankSet::EMPTY; Rank::COUNT],
            marked: [RankSet::EMPTY; Rank::COUNT],
            calls: [None; Rank::COUNT],
            mail: Mail::empty(),
            drawn: [0; Host::COUNT],
        }
    }

    /// The desk of a sound state; an unsound one has none.
    pub fn from_snapshot(state: &Snapshot) -> Option<Desk> {
        if !is_sound(state) {
            return None;
        }
        let mut desk = Desk::fresh();
        desk.standings = state.standings;
        desk.tables = state.tables;
        desk.calls = state.calls;
        desk.drawn = state.drawn.map(|count| count as u16);
        for holder in Rank::all() {
            for other in Rank::all() {
                match state.line(holder, other) {
                    Line::None => {}
                    Line::Plain => desk.plain[holder.index()].insert(other),
                    Line::Notice => desk.notice[holder.index()].insert(other),
                }
                match state.awaits(holder, other) {
                    Await::None => {}
                    Await::Unheeded => desk.unheeded[holder.index()].insert(other),
                    Await::Marked => desk.marked[holder.index()].insert(other),
                }
                let sent = state.sent[holder.index()][other.index()];
                desk.mail.set_sent(holder, other, sent);
            }
        }
        for message in &state.messages {
            let place = Place::ALL[usize::from(message.place)];
            let (value, number) = (message.value, message.number);
            let content = Content { value, number };
            desk.mail
                .put_last(message.sender, message.receiver, content, place);
        }
        Some(desk)
    }

    /// The plain state.
    pub fn snapshot(&self) -> Snapshot {
        let mut state = Snapshot::fresh();
        state.standings = self.standings;
        state.tables = self.tables;
        state.calls = self.calls;
        state.drawn = self.drawn.map(u32::from);
        state.messages = self.messages();
        for holder in Rank::all() {
            for other in Rank::all() {
                state.lines[holder.index()][other.index()] = self.line(holder, other);
                state.awaits[holder.index()][other.index()] = self.awaits(holder, other);
                state.sent[holder.index()][other.index()] = self.mail.sent(holder, other);
            }
        }
        state
    }

    /// The unread messages in order of sending over all pairs.
    fn messages(&self) -> Vec<Message> {
        let mut stamped = Vec::with_capacity(self.mail.unread());
        for receiver in Rank::all() {
            for sender in self.mail.senders_to(receiver) {
                let stamps = self.mail.stamps_of_pair(sender, receiver);
                let unread = self.mail.unread_of_pair(sender, receiver);
                let messages = unread.map(|(content, place)| Message {
                    sender,
                    receiver,
                    value: content.value,
                    place: place as u8,
                    number: content.number,
                });
                stamped.extend(stamps.zip(messages));
            }
        }
        stamped.sort_unstable_by_key(|&(stamp, _)| stamp);
        stamped.into_iter().map(|(_, message)| message).collect()
    }

    /// How many bytes the state takes.
    pub fn bytes(&self) -> usize {
        size_of::<Desk>() - size_of::<Mail>() + self.mail.bytes()
    }

    /// The standing of a rank.
    pub fn standing(&self, rank: Rank) -> Standing {
        self.standings[rank.index()]
    }

    /// The vmid that `holder` believes to be `other`'s.
    pub fn table_entry(&self, holder: Rank, other: Rank) -> Vmid {
        self.tables[holder.index()][other.index()]
    }

    /// What line `holder` has to `other`.
    pub fn line(&self, holder: Rank, other: Rank) -> Line {
        if self.plain[holder.index()].contains(other) {
            Line::Plain
        } else if self.notice[holder.index()].contains(other) {
            Line::Notice
        } else {
            Line::None
        }
    }

    /// Whether `holder` has any line at all.
    pub fn has_lines(&self, holder: Rank) -> bool {
        !(self.plain[holder.index()].is_empty() && self.notice[holder.index()].is_empty())
    }

    /// What `holder` awaits of `other`.
    pub fn awaits(&self, holder: Rank, other: Rank) -> Await {
        if self.unheeded[holder.index()].contains(other) {
            Await::Unheeded
        } else if self.marked[holder.index()].contains(other) {
            Await::Marked
        } else {
            Await::None
        }
    }

    /// Whether `holder` awaits anything at all.
    pub fn has_awaits(&self, holder: Rank) -> bool {
        !(self.unheeded[holder.index()].is_empty() && self.marked[holder.index()].is_empty())
    }

    /// The open call of a rank.
    pub fn call(&self, caller: Rank) -> Option<Call> {
        self.calls[caller.index()]
    }

    /// The unread messages.
    pub fn mail(&self) -> &Mail {
        &self.mail
    }

    /// How many numbers were drawn on a host.
    pub fn drawn(&self, host: Host) -> u16 {
        self.drawn[host.index()]
    }
}
