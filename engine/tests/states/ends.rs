//! The ends of what a test of soundness goes through: rank 0, rank 15, the first
//! message and the last slot. Each of them alone breaks each sentence about it.

use crate::built::snapshot;
use crate::list::states;
use engine::{broken_clauses, is_sound, Await, Clause, Line, Mail, Rank, Snapshot, Standing, Vmid};
use std::collections::BTreeSet;

/// What is not about a rank: place 4, which the program's state can't hold, and
/// the number of messages.
const OF_NO_RANK: [Clause; 2] = [Clause::PlacesInRange, Clause::MessagesWithinLimit];

/// What is about messages one by one.
const OF_MESSAGES: [Clause; 11] = [
    Clause::RanksInRange,
    Clause::NothingWithItself,
    Clause::SendersStarted,
    Clause::ReceiversRunningOrMoving,
    Clause::UnheededOnlyMoverPlaces,
    Clause::MoverPlacesOnlyMoving,
    Clause::MoverLaneOnlyWithAwait,
    Clause::CurrentLaneOnlyWithLine,
    Clause::PlacesNeverFall,
    Clause::RunningNumbersRise,
    Clause::RunningNumbersWithinSent,
];

/// The clauses that a listed state breaks alone, and that hold in it again once
/// this is taken from it.
fn broken_by(taken: impl Fn(&mut Snapshot)) -> BTreeSet<Clause> {
    let states = states();
    let broken = states.iter().filter_map(|listed| {
        let state = snapshot(listed, &states[0]);
        let mut rest = state.clone();
        taken(&mut rest);
        match broken_clauses(&state)[..] {
            [clause] if is_sound(&rest) => Some(clause),
            _ => None,
        }
    });
    broken.collect()
}

/// The rank is unstarted, and nobody has anything of it or with it. What it
/// holds of the others is what its neighbour does.
fn take_rank(state: &mut Snapshot, rank: Rank) {
    let gone = rank.index();
    state.standings[gone] = Standing::Unstarted;
    state.tables[gone] = state.tables[gone ^ 1];
    state.calls[gone] = None;
    state.lines[gone] = [Line::None; Rank::COUNT];
    state.awaits[gone] = [Await::None; Rank::COUNT];
    for other in 0..Rank::COUNT {
        state.tables[other][gone] = Vmid::UNKNOWN;
        state.lines[other][gone] = Line::None;
        state.awaits[other][gone] = Await::None;
        state.calls[other] = state.calls[other].filter(|call| call.called != rank);
    }
    state
        .messages
        .retain(|m| m.sender != rank && m.receiver != rank);
}

/// Each of these clauses is among the broken ones.
fn assert_all(clauses: impl IntoIterator<Item = Clause>, broken: &BTreeSet<Clause>) {
    let missing = clauses
        .into_iter()
        .filter(|clause| !broken.contains(clause));
    assert_eq!(missing.collect::<Vec<_>>(), []);
}

#[test]
fn rank_0_alone_and_rank_15_alone_break_every_sentence() {
    for rank in [Rank(0), Rank(15)] {
        let broken = broken_by(|state| take_rank(state, rank));
        let of_ranks = Clause::all().filter(|clause| !OF_NO_RANK.contains(clause));
        assert_all(of_ranks, &broken);
    }
}

#[test]
fn the_first_message_and_the_last_slot_break_every_sentence_on_messages() {
    let first = broken_by(|state| {
        if state.messages.len() > 1 {
            state.messages.remove(0);
        }
    });
    let last = broken_by(|state| {
        if state.messages.len() == Mail::LIMIT {
            state.messages.pop();
        }
    });
    assert_all(OF_MESSAGES, &first);
    assert_all(OF_MESSAGES, &last);
}
