//! Soundness: paper 01, "Sound states", one function for each of its clauses,
//! in its order, then those that paper 02 adds. The clauses on range come first,
//! since the others speak only of ranks, hosts and places that there are.

use crate::mail::{Mail, Place};
use crate::names::{Rank, Vmid};
use crate::snapshot::{Await, Line, Message, Snapshot, Standing};

/// A clause of "Sound states", or of what a request adds to it.
#[derive(Clone, Copy, Debug, PartialEq, Eq, PartialOrd, Ord)]
#[allow(missing_docs)]
pub enum Clause {
    RanksInRange,
    HostsInRange,
    NumbersInRange,
    PlacesInRange,
    NumbersDrawn,
    EntriesUnknownForUnstarted,
    NoOtherVmidUnknown,
    NothingWithItself,
    NoVmidShared,
    LinesOfRunningOrMoving,
    PlainOnBothSides,
    NoticeFacesNone,
    AwaitsOfMoving,
    AwaitsFromStarted,
    UnheededExactlyAtNotice,
    CallsFromRunning,
    CallsToStarted,
    CallsWithoutLine,
    MessagesWithinLimit,
    SendersStarted,
    ReceiversRunningOrMoving,
    UnheededOnlyMoverPlaces,
    MoverPlacesOnlyMoving,
    MoverLaneOnlyWithAwait,
    CurrentLaneOnlyWithLine,
    PlacesNeverFall,
    RunningNumbersRise,
    RunningNumbersWithinSent,
}

impl Clause {
    /// All clauses, in the order of the papers but for those on range.
    pub fn all() -> impl Iterator<Item = Clause> {
        RANGES.iter().chain(&RELATIONS).map(|&(clause, _)| clause)
    }
}

/// A clause and the test that it holds.
type Test = (Clause, fn(&Snapshot) -> bool);

const RANGES: [Test; 4] = [
    (Clause::RanksInRange, ranks_in_range),
    (Clause::HostsInRange, hosts_in_range),
    (Clause::NumbersInRange, numbers_in_range),
    (Clause::PlacesInRange, places_in_range),
];

const RELATIONS: [Test; 24] = [
    (Clause::NumbersDrawn, numbers_drawn),
    (
        Clause::EntriesUnknownForUnstarted,
        entries_unknown_for_unstarted,
    ),
    (Clause::NoOtherVmidUnknown, no_other_vmid_unknown),
    (Clause::NothingWithItself, nothing_with_itself),
    (Clause::NoVmidShared, no_vmid_shared),
    (Clause::LinesOfRunningOrMoving, lines_of_running_or_moving),
    (Clause::PlainOnBothSides, plain_on_both_sides),
    (Clause::NoticeFacesNone, notice_faces_none),
    (Clause::AwaitsOfMoving, awaits_of_moving),
    (Clause::AwaitsFromStarted, awaits_from_started),
    (Clause::UnheededExactlyAtNotice, unheeded_exactly_at_notice),
    (Clause::CallsFromRunning, calls_from_running),
    (Clause::CallsToStarted, calls_to_started),
    (Clause::CallsWithoutLine, calls_without_line),
    (Clause::MessagesWithinLimit, messages_within_limit),
    (Clause::SendersStarted, senders_started),
    (
        Clause::ReceiversRunningOrMoving,
        receivers_running_or_moving,
    ),
    (Clause::UnheededOnlyMoverPlaces, unheeded_only_mover_places),
    (Clause::MoverPlacesOnlyMoving, mover_places_only_moving),
    (Clause::MoverLaneOnlyWithAwait, mover_lane_only_with_await),
    (Clause::CurrentLaneOnlyWithLine, current_lane_only_with_line),
    (Clause::PlacesNeverFall, places_never_fall),
    (Clause::RunningNumbersRise, running_numbers_rise),
    (
        Clause::RunningNumbersWithinSent,
        running_numbers_within_sent,
    ),
];

/// "A state is sound when all of these hold."
pub fn is_sound(state: &Snapshot) -> bool {
    let holds = |&(_, test): &Test| test(state);
    RANGES.iter().all(holds) && RELATIONS.iter().all(holds)
}

/// The clauses that do not hold; the clauses on range alone when one of those
/// does not.
pub fn broken_clauses(state: &Snapshot) -> Vec<Clause> {
    let broken = |tests: &[Test]| -> Vec<Clause> {
        let failing = tests.iter().filter(|(_, test)| !test(state));
        failing.map(|&(clause, _)| clause).collect()
    };
    let out_of_range = broken(&RANGES);
    if out_of_range.is_empty() {
        broken(&RELATIONS)
    } else {
        out_of_range
    }
}

/// The vmids of running processes, movers and arrivals.
fn live_vmids(state: &Snapshot) -> impl Iterator<Item = Vmid> + '_ {
    state.standings.iter().flat_map(|standing| {
        let (first, second) = match *standing {
            Standing::Running(vmid) => (Some(vmid), None),
            Standing::Moving { mover, arrival } => (Some(mover), Some(arrival)),
            Standing::Unstarted | Standing::Ended(_) => (None, None),
        };
        first.into_iter().chain(second)
    })
}

/// All vmids outside the tables: live ones, last ones of ended ranks, posted
/// ones of calls.
fn vmids_outside_tables(state: &Snapshot) -> impl Iterator<Item = Vmid> + '_ {
    let last = state
        .standings
        .iter()
        .filter_map(|standing| match *standing {
            Standing::Ended(vmid) => Some(vmid),
            _ => None,
        });
    let posted = state.calls.iter().flatten().map(|call| call.posted);
    live_vmids(state).chain(last).chain(posted)
}

/// All vmids of the state but 0.0.
fn known_vmids(state: &Snapshot) -> impl Iterator<Item = Vmid> + '_ {
    let entries = state.tables.iter().flatten().copied();
    let vmids = vmids_outside_tables(state).chain(entries);
    vmids.filter(|&vmid| vmid != Vmid::UNKNOWN)
}

fn has_current_end(state: &Snapshot, rank: Rank) -> bool {
    state.standing(rank).current_end().is_some()
}

fn all_pairs(holds: impl Fn(Rank, Rank) -> bool) -> bool {
    Rank::all().all(|first| Rank::all().all(|second| holds(first, second)))
}

fn all_calls(state: &Snapshot, holds: impl Fn(Rank, Rank) -> bool) -> bool {
    Rank::all()
        .all(|caller| state.calls[caller.index()].is_none_or(|call| holds(caller, call.called)))
}

fn all_messages<'a>(state: &'a Snapshot, holds: impl FnMut(&'a Message) -> bool) -> bool {
    state.messages.iter().all(holds)
}

/// Each message with the one of its pair that was sent before it, where that is
/// unread too.
fn all_successive(state: &Snapshot, holds: impl Fn(&Message, &Message) -> bool) -> bool {
    let mut last = [[None; Rank::COUNT]; Rank::COUNT];
    all_messages(state, |m| {
        let before: Option<&Message> = last[m.sender.index()][m.receiver.index()].replace(m);
        before.is_none_or(|before| holds(before, m))
    })
}

fn ranks_in_range(state: &Snapshot) -> bool {
    all_calls(state, |_, called| called.in_range())
        && all_messages(state, |m| m.sender.in_range() && m.receiver.in_range())
}

fn hosts_in_range(state: &Snapshot) -> bool {
    known_vmids(state).all(|vmid| vmid.host().in_range())
}

fn numbers_in_range(state: &Snapshot) -> bool {
    let last = u32::from(Vmid::LAST_NUMBER);
    known_vmids(state).all(|vmid| vmid.number() >= 1)
        && state.drawn.iter().all(|&count| count <= last)
}

fn places_in_range(state: &Snapshot) -> bool {
    all_messages(state, |m| usize::from(m.place) < Place::ALL.len())
}

fn numbers_drawn(state: &Snapshot) -> bool {
    known_vmids(state).all(|vmid| u32::from(vmid.number()) <= state.drawn[vmid.host().index()])
}

fn entries_unknown_for_unstarted(state: &Snapshot) -> bool {
    all_pairs(|holder, other| {
        let unknown = state.tables[holder.index()][other.index()] == Vmid::UNKNOWN;
        unknown != state.standing(other).is_started()
    })
}

fn no_other_vmid_unknown(state: &Snapshot) -> bool {
    vmids_outside_tables(state).all(|vmid| vmid != Vmid::UNKNOWN)
}

fn nothing_with_itself(state: &Snapshot) -> bool {
    Rank::all().all(|rank| state.line(rank, rank) == Line::None)
        && Rank::all().all(|rank| state.awaits(rank, rank) == Await::None)
        && all_calls(state, |caller, called| caller != called)
        && all_messages(state, |m| m.sender != m.receiver)
}

fn no_vmid_shared(state: &Snapshot) -> bool {
    let shared = |(index, vmid)| live_vmids(state).skip(index + 1).any(|later| later == vmid);
    !live_vmids(state).enumerate().any(shared)
}

fn lines_of_running_or_moving(state: &Snapshot) -> bool {
    all_pairs(|holder, other| {
        state.line(holder, other) == Line::None || has_current_end(state, holder)
    })
}

fn plain_on_both_sides(state: &Snapshot) -> bool {
    all_pairs(|holder, other| {
        state.line(holder, other) != Line::Plain || state.line(other, holder) == Line::Plain
    })
}

fn notice_faces_none(state: &Snapshot) -> bool {
    all_pairs(|holder, other| {
        state.line(holder, other) != Line::Notice || state.line(other, holder) == Line::None
    })
}

fn awaits_of_moving(state: &Snapshot) -> bool {
    all_pairs(|holder, other| {
        state.awaits(holder, other) == Await::None || state.standing(holder).is_moving()
    })
}

fn awaits_from_started(state: &Snapshot) -> bool {
    all_pairs(|holder, other| {
        state.awaits(holder, other) == Await::None || state.standing(other).is_started()
    })
}

fn unheeded_exactly_at_notice(state: &Snapshot) -> bool {
    all_pairs(|holder, other| {
        (state.awaits(holder, other) == Await::Unheeded)
            == (state.line(other, holder) == Line::Notice)
    })
}

fn calls_from_running(state: &Snapshot) -> bool {
    all_calls(state, |caller, _| state.standing(caller).is_running())
}

fn calls_to_started(state: &Snapshot) -> bool {
    all_calls(state, |_, called| state.standing(called).is_started())
}

fn calls_without_line(state: &Snapshot) -> bool {
    all_calls(state, |caller, called| {
        state.line(caller, called) == Line::None
    })
}

fn messages_within_limit(state: &Snapshot) -> bool {
    state.messages.len() <= Mail::LIMIT
}

fn senders_started(state: &Snapshot) -> bool {
    all_messages(state, |m| state.standing(m.sender).is_started())
}

fn receivers_running_or_moving(state: &Snapshot) -> bool {
    all_messages(state, |m| has_current_end(state, m.receiver))
}

fn unheeded_only_mover_places(state: &Snapshot) -> bool {
    all_messages(state, |m| {
        m.place <= Place::MoverLane as u8 || state.awaits(m.receiver, m.sender) != Await::Unheeded
    })
}

fn mover_places_only_moving(state: &Snapshot) -> bool {
    all_messages(state, |m| {
        m.place > Place::MoverLane as u8 || state.standing(m.receiver).is_moving()
    })
}

fn mover_lane_only_with_await(state: &Snapshot) -> bool {
    all_messages(state, |m| {
        m.place != Place::MoverLane as u8 || state.awaits(m.receiver, m.sender) != Await::None
    })
}

fn current_lane_only_with_line(state: &Snapshot) -> bool {
    all_messages(state, |m| {
        m.place != Place::CurrentLane as u8 || state.line(m.receiver, m.sender) != Line::None
    })
}

fn places_never_fall(state: &Snapshot) -> bool {
    all_successive(state, |before, m| before.place <= m.place)
}

/// "Sound pairs have unread numbers rising" (paper 02, Change 4).
fn running_numbers_rise(state: &Snapshot) -> bool {
    all_successive(state, |before, m| before.number < m.number)
}

/// "Within 1 to the count sent" (paper 02, Change 4).
fn running_numbers_within_sent(state: &Snapshot) -> bool {
    all_messages(state, |m| {
        let sent = state.sent[m.sender.index()][m.receiver.index()];
        (1..=sent).contains(&m.number)
    })
}
