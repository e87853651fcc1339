//! A pair that has sent all that it can, paper 02, Change 4: "28 for a send when
//! the pair has already sent 4,294,967,295, tested after 25." No test sends so
//! many: the states are handed in.

use crate::refusals::spent;
use crate::refused_records::CROWD;
use crate::text::{answers_of, desk_after, log_of, JOINED};
use engine::refusal::{number_of, values_of};
use engine::{is_sound, step, Answer, Desk, Outcome, Rank, Refusal, Snapshot};

/// Ranks 0 and 1 joined, and 0 has sent so many messages to 1.
fn joined_after(sent: u32) -> Snapshot {
    let mut state = desk_after(JOINED).snapshot();
    state.sent[0][1] = sent;
    state
}

fn number_in(state: &Snapshot, record: &str) -> u8 {
    number_of(&step(&mut state.clone(), &log_of(record), 0).answer)
}

#[test]
fn a_spent_pair_gets_28_and_the_position_passes() {
    let before = joined_after(4_294_967_295);
    assert!(is_sound(&before));
    let mut state = before.clone();
    let log = log_of("send 0 1 500, look 0");
    let refused = Outcome {
        answer: Err(Refusal::SendsExhausted),
        next: 7,
    };
    assert_eq!(step(&mut state, &log, 0), refused);
    assert_eq!(values_of(&refused.answer), [0; 3]);
    assert_eq!(state, before);
}

#[test]
fn the_last_number_is_given_and_then_28() {
    let mut state = joined_after(4_294_967_294);
    let log = log_of("send 0 1 500, send 0 1 501, take 1 0, send 0 1 502, take 1 0");
    let mut position = 0;
    let answers = std::array::from_fn(|_| {
        let outcome = step(&mut state, &log, position);
        position = outcome.next;
        outcome.answer
    });
    let expected = [
        Ok([1, 0, 0]),
        Err(Refusal::SendsExhausted),
        Ok([500, 0, 4_294_967_295]),
        Err(Refusal::SendsExhausted),
        Err(Refusal::NothingUnread),
    ];
    assert_eq!(answers, expected);
    assert_eq!(position, log.len() as u64);
    assert_eq!(state.sent[0][1], 4_294_967_295);
}

/// The count is the pair's: neither the other direction nor another receiver
/// is refused.
#[test]
fn other_pairs_send_on() {
    let mut state = desk_after(&format!("{JOINED}, start 2 2, call 0 2, route 0 2")).snapshot();
    state.sent[0][1] = 4_294_967_295;
    assert_eq!(number_in(&state, "send 0 1 5"), 28);
    for record in ["send 1 0 5", "send 0 2 5", "send 2 0 5"] {
        assert_eq!(number_in(&state, record), 0, "{record}");
    }
}

/// Nothing but a send is refused: the pair parts, moves, drains and takes.
#[test]
fn a_spent_pair_goes_on_but_for_sends() {
    let mut state = joined_after(4_294_967_294);
    let send = step(&mut state, &log_of("send 0 1 500"), 0);
    assert_eq!(send.answer, Ok([1, 0, 0]));
    let mut desk = Desk::from_snapshot(&state).expect("the state is sound");
    let steps = "move 1 2, send 0 1 501, heed 0 1, drain 1 0, drain 1 0, land 1, take 1 0";
    let answers = answers_of(&mut desk, &log_of(steps));
    let expected = [
        Ok([2, 1, 1]),
        Err(Refusal::SendsExhausted),
        Ok([0; 3]),
        Ok([0, 500, 4_294_967_295]),
        Ok([1, 0, 0]),
        Ok([1, 0, 0]),
        Ok([500, 0, 4_294_967_295]),
    ];
    assert_eq!(answers, expected);
}

/// Every pair is spent, and each other check of a send comes first.
#[test]
fn every_other_check_of_a_send_comes_before_28() {
    let crowd = spent(CROWD);
    for (record, number) in [
        ("send 16 0 1", 4),
        ("send 0 16 1", 4),
        ("send 0 0 1", 6),
        ("send 4 0 1", 7),
        ("send 0 4 1", 7),
        ("send 2 0 1", 9),
        ("send 3 0 1", 10),
        ("send 0 2 1", 15),
        ("send 1 3 1", 15),
        ("send 0 1 1", 28),
        ("send 0 3 1", 28),
    ] {
        assert_eq!(number_in(&crowd, record), number, "{record}");
    }
}

#[test]
fn a_full_desk_gets_24_before_28() {
    let mut log = log_of(JOINED);
    log.extend(log_of("send 0 1 9").repeat(1_024));
    let mut state = Snapshot::fresh();
    let mut position = 0;
    while position < log.len() as u64 {
        position = step(&mut state, &log, position).next;
    }
    state.sent[0][1] = 4_294_967_295;
    assert_eq!(number_in(&state, "send 0 1 1"), 24);
    let take = step(&mut state, &log_of("take 1 0"), 0);
    assert_eq!(take.answer, Ok([9, 1_023, 1]));
    assert_eq!(number_in(&state, "send 0 1 1"), 28);
}

/// The lines of some answers: number and values.
fn lines(answers: &[Answer]) -> String {
    let line = |answer| {
        let [v1, v2, v3] = values_of(answer);
        format!("{} {v1} {v2} {v3}\n", number_of(answer))
    };
    answers.iter().map(line).collect()
}

/// What the program of `crates/test_spent` prints: the number and the values of
/// each step, and the count sent. It sets the count after four steps; then it
/// hands in a crowd, and a full desk, in which every pair is spent.
#[test]
fn the_program_spent_is_answered_alike() {
    let first = "start 0 0, start 1 1, call 0 1, route 0 1";
    let then = "send 0 1 500, send 0 1 501, send 1 0 502, take 1 0, send 0 1 503";
    let mut desk = Desk::fresh();
    let mut printed = lines(&answers_of(&mut desk, &log_of(first)));
    let connected = desk.snapshot();
    let mut state = connected.clone();
    state.sent[0][1] = 4_294_967_294;
    let mut desk = Desk::from_snapshot(&state).expect("the state is sound");
    printed += &lines(&answers_of(&mut desk, &log_of(then)));
    printed += &format!("{} sent\n", desk.mail().sent(Rank(0), Rank(1)));

    let mut desk = Desk::from_snapshot(&connected).expect("the state is sound");
    let crowd = "start 2 2, start 3 3, end 2, move 3 4";
    printed += &lines(&answers_of(&mut desk, &log_of(crowd)));
    let sends =
        "send 0 0 500, send 4 0 500, send 2 0 500, send 3 0 500, send 0 2 500, send 0 1 500";
    let full = vec!["send 0 1 500"; 1_024].join(", ");
    for (before, then) in [(crowd, sends), (&full, "send 0 1 500")] {
        let state = spent(&format!("{first}, {before}"));
        let mut desk = Desk::from_snapshot(&state).expect("the state is sound");
        printed += &lines(&answers_of(&mut desk, &log_of(then)));
    }

    let stored = concat!(env!("CARGO_MANIFEST_DIR"), "/../crates/test_spent/stdout");
    assert_eq!(printed, std::fs::read_to_string(stored).unwrap());
}
