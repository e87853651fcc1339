//! Every refusal from 2 on in every kind that the papers' checks name for it:
//! the number, zero values, an unchanged state, and a position that passes the
//! record. Every pair of paper 01's table is reachable but that of 18, which is
//! given no more (paper 02, Change 2). 28 (Change 4) is met in a state that is
//! handed in: no test can send 4,294,967,295 messages.

use crate::check_table::NAMED;
use crate::edges::nearly_exhausted;
use crate::refused_records::{CROWD, ROWS};
use crate::step_log::KINDS;
use crate::text::{desk_after, desk_after_log, log_of, number_after, record_length, JOINED};
use engine::refusal::{number_of, values_of};
use engine::{step, Message, Rank, Snapshot};
use std::collections::BTreeSet;

/// All rows with the states of their setups, those of the limits included.
pub fn rows() -> Vec<(u8, Snapshot, &'static [&'static str])> {
    let state = |log: &[u8]| desk_after_log(log).snapshot();
    let mut rows: Vec<_> = ROWS
        .iter()
        .map(|&(number, setup, records)| (number, state(&log_of(setup)), records))
        .collect();
    let mut full = log_of(JOINED);
    full.extend(log_of("send 0 1 9").repeat(1_024));
    full.extend(log_of("start 2 2"));
    let full = state(&full);
    rows.push((15, full.clone(), &["send 0 2 1", "send 2 1 1"]));
    rows.push((24, full, &["send 0 1 1", "send 1 0 1"]));
    rows.push((
        28,
        spent(CROWD),
        &["send 0 1 1", "send 1 0 1", "send 0 3 1"],
    ));
    let mut exhausted = nearly_exhausted();
    exhausted.extend(log_of("start 1 1"));
    let exhausted = state(&exhausted);
    rows.push((8, exhausted.clone(), &["start 0 0", "start 1 1"]));
    rows.push((
        25,
        exhausted,
        &[
            "start 2 0",
            "start 2 1",
            "move 0 1",
            "move 1 0",
            "move 0 0",
            "move 1 1",
        ],
    ));
    rows
}

/// The state that accepted steps leave, but every pair has already sent
/// 4,294,967,295.
pub fn spent(steps: &str) -> Snapshot {
    let mut state = desk_after(steps).snapshot();
    state.sent = [[4_294_967_295; 16]; 16];
    state
}

#[test]
fn every_row_is_refused_with_its_number() {
    for (number, before, records) in rows() {
        for record in records {
            let log = log_of(record);
            let mut state = before.clone();
            let outcome = step(&mut state, &log, 0);
            assert_eq!(number_of(&outcome.answer), number, "{record}");
            assert_eq!(values_of(&outcome.answer), [0; 3], "{record}");
            assert_eq!(outcome.next, log.len() as u64, "{record}");
            assert_eq!(state, before, "{record}");
        }
    }
}

#[test]
fn rows_reach_every_number_in_every_kind_the_table_names() {
    let word_of = |record: &'static str| record.split(' ').next().unwrap();
    let reached: BTreeSet<(u8, &str)> = rows()
        .iter()
        .flat_map(|(number, _, records)| records.iter().map(|record| (*number, word_of(record))))
        .collect();
    let named: BTreeSet<(u8, &str)> = NAMED
        .iter()
        .flat_map(|(number, words)| words.iter().map(|word| (*number, *word)))
        .collect();
    assert_eq!(reached, named);
}

/// 4 and 7 hold for each of two named ranks.
#[test]
fn either_of_two_ranks_is_checked_for_4_and_7() {
    let two_ranks = NAMED.iter().find(|(number, _)| *number == 6).unwrap().1;
    for (_, word, body) in KINDS.iter().filter(|(_, word, _)| two_ranks.contains(word)) {
        let others = " 77".repeat(body.len() - 2);
        for (ranks, number) in [("16 0", 4), ("0 16", 4), ("4 0", 7), ("0 4", 7)] {
            let record = format!("{word} {ranks}{others}");
            assert_eq!(number_after(CROWD, &record), number, "{record}");
        }
    }
}

/// 3 in every kind, whatever the whole record would get: a body cut short at
/// every length, the position staying.
#[test]
fn a_cut_body_gives_3_in_every_kind() {
    for (_, before, records) in rows() {
        for record in records {
            let log = log_of(record);
            for length in 1..log.len() {
                let mut state = before.clone();
                let outcome = step(&mut state, &log[..length], 0);
                assert_eq!(number_of(&outcome.answer), 3, "{record} to {length}");
                assert_eq!(values_of(&outcome.answer), [0; 3]);
                assert_eq!(outcome.next, 0);
                assert_eq!(state, before);
            }
        }
    }
}

/// 2: every byte that is no kind, whether or not anything follows it.
#[test]
fn a_byte_that_is_no_kind_gives_2() {
    let before = desk_after_log(&log_of(CROWD)).snapshot();
    for byte in (0..=u8::MAX).filter(|&byte| record_length(byte).is_none()) {
        for log in [&[byte][..], &[byte, 0, 1, 0, 0, 0, 0, 0]] {
            let mut state = before.clone();
            let outcome = step(&mut state, log, 0);
            assert_eq!(number_of(&outcome.answer), 2, "kind {byte:02X}");
            assert_eq!(values_of(&outcome.answer), [0; 3]);
            assert_eq!(outcome.next, 0);
            assert_eq!(state, before);
        }
    }
}

/// A refusal leaves even the list of messages as it was lent, though the order
/// between pairs carries no meaning; an accepted step reads it all the same.
#[test]
fn messages_in_any_order_between_pairs_are_read_and_left() {
    let mut lent = desk_after_log(&log_of(JOINED)).snapshot();
    for (sender, receiver, value, number) in
        [(1, 0, 5, 2), (0, 1, 6, 1), (1, 0, 7, 3), (0, 1, 8, 9)]
    {
        lent.messages.push(Message {
            sender: Rank(sender),
            receiver: Rank(receiver),
            value,
            place: 3,
            number,
        });
    }
    (lent.sent[0][1], lent.sent[1][0]) = (9, 4);
    let mut state = lent.clone();
    assert_eq!(number_of(&step(&mut state, &log_of("end 0"), 0).answer), 12);
    assert_eq!(state, lent);
    let takes = log_of("take 0 1, take 1 0, take 0 1, take 1 0");
    let values = [[5, 1, 2], [6, 1, 1], [7, 0, 3], [8, 0, 9]];
    for (position, taken) in (0..).step_by(3).zip(values) {
        assert_eq!(step(&mut state, &takes, position).answer, Ok(taken));
    }
    assert_eq!(state.messages, []);
}
