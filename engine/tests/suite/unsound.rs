//! Refusal 1: for each clause of paper 01, "Sound states", and of what paper 02
//! adds, states that break that clause and no other, with a record that is
//! accepted in the state they were spoiled from. State and position stay.

use crate::refusals::rows;
use crate::text::{desk_after, log_of};
use engine::{broken_clauses, step, Await, Call, Clause, Host, Line, Message, Outcome};
use engine::{Rank, Refusal, Snapshot, Standing, Vmid};
use std::collections::BTreeSet;

/// 0 and 1 joined with a message on the lane; 2 and 6 ended; 3 moving, its
/// await of 0 unheeded and a message on the lane to the mover; 4 running
/// alone; 5 moving without awaits; from 7 on unstarted. Hosts 0 to 4 have two
/// numbers drawn at most, host 7 none.
const BASE: &str = "start 0 0, start 1 1, call 0 1, route 0 1, send 0 1 10, start 2 2, end 2, \
    start 3 3, call 0 3, route 0 3, move 3 4, send 0 3 11, start 4 4, start 5 5, move 5 6, \
    start 6 6, end 6";

/// A vmid that was drawn and that nobody uses any more: rank 2's last.
const SPENT: Vmid = Vmid(Host(2), 1);

type Spoil = fn(&mut Snapshot);

/// One more message; with the next number of its pair, which has then sent one
/// more. A rank that is none has no counts.
fn message(state: &mut Snapshot, sender: u8, receiver: u8, place: u8) {
    let row = state.sent.get_mut(usize::from(sender));
    let sent = row.and_then(|row| row.get_mut(usize::from(receiver)));
    let number = sent.map_or(1, |sent| {
        *sent += 1;
        *sent
    });
    numbered(state, sender, receiver, place, number);
}

/// One more message with this number; the count sent stays.
fn numbered(state: &mut Snapshot, sender: u8, receiver: u8, place: u8, number: u32) {
    state.messages.push(Message {
        sender: Rank(sender),
        receiver: Rank(receiver),
        value: 12,
        place,
        number,
    });
}

fn call(state: &mut Snapshot, caller: usize, called: u8, posted: Vmid) {
    state.calls[caller] = Some(Call {
        called: Rank(called),
        posted,
    });
}

fn running(state: &Snapshot, rank: u8) -> Vmid {
    state.standing(Rank(rank)).current_end().unwrap()
}

fn set_mover(state: &mut Snapshot, rank: usize, new: Vmid) {
    if let Standing::Moving { mover, .. } = &mut state.standings[rank] {
        *mover = new;
    }
}

fn set_arrival(state: &mut Snapshot, rank: usize, new: Vmid) {
    if let Standing::Moving { arrival, .. } = &mut state.standings[rank] {
        *arrival = new;
    }
}

#[rustfmt::skip]
const SPOILS: &[(Clause, &[Spoil])] = &[
    // "Ranks, hosts and numbers are in range"
    (Clause::RanksInRange, &[
        |s| message(s, 200, 4, 2),
        |s| message(s, 4, 16, 2),
        |s| call(s, 4, 16, SPENT),
    ]),
    (Clause::HostsInRange, &[
        |s| s.standings[4] = Standing::Running(Vmid(Host(8), 1)),
        |s| s.standings[2] = Standing::Ended(Vmid(Host(8), 1)),
        |s| set_mover(s, 5, Vmid(Host(255), 1)),
        |s| s.tables[0][1] = Vmid(Host(8), 1),
        |s| call(s, 4, 0, Vmid(Host(8), 1)),
    ]),
    (Clause::NumbersInRange, &[
        |s| s.standings[4] = Standing::Running(Vmid(Host(3), 0)),
        |s| s.tables[0][1] = Vmid(Host(7), 0),
        |s| s.drawn[7] = 65_536,
    ]),
    // a place is one of 0 to 3
    (Clause::PlacesInRange, &[|s| message(s, 1, 0, 4), |s| message(s, 1, 0, 7)]),
    // "each vmid in use or in a table or call has a number already drawn"
    (Clause::NumbersDrawn, &[
        |s| s.standings[4] = Standing::Running(Vmid(Host(7), 1)),
        |s| s.standings[2] = Standing::Ended(Vmid(Host(2), 2)),
        |s| set_mover(s, 5, Vmid(Host(5), 2)),
        |s| set_arrival(s, 5, Vmid(Host(7), 65_535)),
        |s| s.tables[0][1] = Vmid(Host(1), 2),
        |s| call(s, 4, 0, Vmid(Host(0), 2)),
    ]),
    // "a table entry is 0.0 exactly when the rank it is for is unstarted"
    (Clause::EntriesUnknownForUnstarted, &[
        |s| s.tables[0][1] = Vmid::UNKNOWN,
        |s| s.tables[4][4] = Vmid::UNKNOWN,
        |s| s.tables[9][2] = Vmid::UNKNOWN,
        |s| s.tables[0][9] = SPENT,
    ]),
    // "and no other vmid is 0.0"
    (Clause::NoOtherVmidUnknown, &[
        |s| s.standings[4] = Standing::Running(Vmid::UNKNOWN),
        |s| s.standings[2] = Standing::Ended(Vmid::UNKNOWN),
        |s| set_mover(s, 5, Vmid::UNKNOWN),
        |s| set_arrival(s, 5, Vmid::UNKNOWN),
        |s| call(s, 4, 0, Vmid::UNKNOWN),
    ]),
    // "Nobody has a line, await, call or message with itself."
    (Clause::NothingWithItself, &[
        |s| s.lines[4][4] = Line::Plain,
        |s| s.awaits[5][5] = Await::Marked,
        |s| call(s, 4, 4, SPENT),
        |s| message(s, 4, 4, 2),
    ]),
    // "No two running processes, movers or arrivals share a vmid."
    (Clause::NoVmidShared, &[
        |s| s.standings[4] = Standing::Running(running(s, 0)),
        |s| set_mover(s, 5, running(s, 0)),
        |s| set_arrival(s, 5, running(s, 3)),
        |s| set_mover(s, 5, running(s, 5)),
    ]),
    // "Lines belong to running or moving ranks"
    (Clause::LinesOfRunningOrMoving, &[
        |s| (s.lines[2][6], s.lines[6][2]) = (Line::Plain, Line::Plain),
        |s| (s.lines[8][9], s.lines[9][8]) = (Line::Plain, Line::Plain),
        |s| (s.lines[2][5], s.awaits[5][2]) = (Line::Notice, Await::Unheeded),
    ]),
    // "plain stands on both sides or neither"
    (Clause::PlainOnBothSides, &[|s| s.lines[4][0] = Line::Plain, |s| s.lines[5][4] = Line::Plain]),
    // "a notice faces none"
    (Clause::NoticeFacesNone, &[|s| {
        (s.lines[3][5], s.awaits[5][3]) = (Line::Notice, Await::Unheeded);
        (s.lines[5][3], s.awaits[3][5]) = (Line::Notice, Await::Unheeded);
    }]),
    // "Awaits belong to moving ranks"
    (Clause::AwaitsOfMoving, &[
        |s| s.awaits[4][0] = Await::Marked,
        |s| s.awaits[2][0] = Await::Marked,
        |s| s.awaits[9][0] = Await::Marked,
    ]),
    // "from started ranks"
    (Clause::AwaitsFromStarted, &[|s| s.awaits[5][9] = Await::Marked]),
    // "r's await of s is unheeded exactly when s's line to r is notice"
    (Clause::UnheededExactlyAtNotice, &[
        |s| s.awaits[5][4] = Await::Unheeded,
        |s| s.lines[4][5] = Line::Notice,
        |s| (s.lines[4][5], s.awaits[5][4]) = (Line::Notice, Await::Marked),
    ]),
    // "Calls go from a running rank"
    (Clause::CallsFromRunning, &[
        |s| call(s, 5, 4, SPENT),
        |s| call(s, 2, 4, SPENT),
        |s| call(s, 9, 4, SPENT),
    ]),
    // "to a started rank"
    (Clause::CallsToStarted, &[|s| call(s, 4, 9, SPENT)]),
    // "to which it has no line"
    (Clause::CallsWithoutLine, &[|s| call(s, 0, 1, SPENT), |s| call(s, 0, 3, SPENT)]),
    // "At most 1,024 messages stand."
    (Clause::MessagesWithinLimit, &[|s| (2..1_025).for_each(|_| message(s, 1, 0, 3))]),
    // "Senders are started"
    (Clause::SendersStarted, &[|s| message(s, 9, 4, 2)]),
    // "receivers running or moving"
    (Clause::ReceiversRunningOrMoving, &[|s| message(s, 4, 2, 2), |s| message(s, 4, 9, 2)]),
    // "While r's await of s is unheeded, messages from s to r are at places 0 and 1 only."
    (Clause::UnheededOnlyMoverPlaces, &[|s| message(s, 0, 3, 2)]),
    // "Places 0 and 1 occur only for a moving receiver"
    (Clause::MoverPlacesOnlyMoving, &[|s| message(s, 0, 4, 0)]),
    // "place 1 only with an await"
    (Clause::MoverLaneOnlyWithAwait, &[|s| message(s, 4, 5, 1)]),
    // "place 3 only with a line from receiver to sender"
    (Clause::CurrentLaneOnlyWithLine, &[|s| message(s, 0, 4, 3), |s| message(s, 4, 5, 3)]),
    // "Within a pair, places never fall along the order of sending."
    (Clause::PlacesNeverFall, &[
        |s| message(s, 0, 1, 2),
        |s| message(s, 0, 3, 0),
        |s| { message(s, 4, 5, 2); message(s, 1, 5, 0); message(s, 4, 5, 0); },
    ]),
    // "Sound pairs have unread numbers rising" (paper 02, Change 4)
    (Clause::RunningNumbersRise, &[
        |s| numbered(s, 0, 1, 3, 1),
        |s| { s.sent[0][1] = 9; numbered(s, 0, 1, 3, 7); numbered(s, 0, 1, 3, 6); },
        |s| { s.sent[4][5] = 9; for number in [5, 8, 8] { numbered(s, 4, 5, 2, number); } },
        |s| {
            s.sent[4][5] = 9;
            numbered(s, 4, 5, 2, 5);
            message(s, 1, 5, 2);
            numbered(s, 4, 5, 2, 4);
        },
    ]),
    // "within 1 to the count sent" (paper 02, Change 4)
    (Clause::RunningNumbersWithinSent, &[
        |s| numbered(s, 0, 1, 3, 2),
        |s| numbered(s, 4, 5, 2, 0),
        |s| numbered(s, 4, 5, 2, 1),
        |s| { s.sent[4][5] = u32::MAX - 1; numbered(s, 4, 5, 2, u32::MAX); },
        |s| { s.sent[5][4] = 3; numbered(s, 4, 5, 2, 3); },
        |s| s.sent[0][1] = 0,
    ]),
];

#[test]
fn each_clause_of_soundness_is_refused_with_1() {
    let base = desk_after(BASE).snapshot();
    assert_eq!(broken_clauses(&base), []);
    let log = log_of("look 9, start 9 3");
    let accepted = step(&mut base.clone(), &log, 2);
    assert_eq!(accepted.answer, Ok([3, 2, 0]));
    for &(clause, spoils) in SPOILS {
        for (index, spoil) in spoils.iter().enumerate() {
            let mut spoiled = base.clone();
            spoil(&mut spoiled);
            assert_eq!(
                broken_clauses(&spoiled),
                [clause],
                "spoil {index} of {clause:?}"
            );
            let mut state = spoiled.clone();
            // A record, the log's end, far past it: nothing is read before 1.
            for position in [2, log.len() as u64, u64::MAX] {
                let refused = Outcome {
                    answer: Err(Refusal::UnsoundState),
                    next: position,
                };
                assert_eq!(step(&mut state, &log, position), refused);
                assert_eq!(state, spoiled);
            }
            assert_eq!(
                step(&mut state, &[0xFF], 0).answer,
                Err(Refusal::UnsoundState)
            );
        }
    }
}

/// Whatever other number a record would get.
#[test]
fn an_unsound_state_gives_1_before_every_other_number() {
    for (number, mut state, records) in rows() {
        state.drawn[7] = 65_536;
        for record in records {
            let outcome = step(&mut state, &log_of(record), 0);
            assert_eq!(
                outcome.answer,
                Err(Refusal::UnsoundState),
                "{record}, not {number}"
            );
        }
    }
}

#[test]
fn every_clause_has_a_spoiled_state() {
    let spoiled: BTreeSet<Clause> = SPOILS.iter().map(|&(clause, _)| clause).collect();
    assert_eq!(spoiled, Clause::all().collect());
}

#[test]
fn limits_themselves_are_sound() {
    let mut state = desk_after(BASE).snapshot();
    (2..1_024).for_each(|_| message(&mut state, 1, 0, 3));
    state.drawn[7] = 65_535;
    state.tables[0][1] = Vmid(Host(7), 65_535);
    let last = state.messages.last_mut().unwrap();
    (last.number, state.sent[1][0]) = (u32::MAX, u32::MAX);
    assert_eq!(state.messages.len(), 1_024);
    assert_eq!(broken_clauses(&state), []);
    assert_eq!(
        step(&mut state, &log_of("start 9 7"), 0).answer,
        Err(Refusal::NumbersExhausted)
    );
    assert_eq!(
        step(&mut state, &log_of("send 0 1 1"), 0).answer,
        Err(Refusal::DeskFull)
    );
}
