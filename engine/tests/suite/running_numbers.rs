//! Running numbers, paper 02, Change 4: "The number of a message within its
//! ordered pair, from 1 in order of sending, is now kept with the message." A
//! take gives it as v3, and a drain that moves a message does too.

use crate::text::{answers_of, desk_after, log_of, JOINED};
use engine::{Desk, Mail, Message, Place, Rank, Refusal, Snapshot, Values};

const ZERO: Rank = Rank(0);
const ONE: Rank = Rank(1);

/// What accepted steps answer.
fn values(desk: &mut Desk, steps: &str) -> Vec<Values> {
    let answers = answers_of(desk, &log_of(steps)).into_iter();
    let accepted: Result<Vec<Values>, Refusal> = answers.collect();
    accepted.unwrap_or_else(|refusal| panic!("{refusal:?} in {steps}"))
}

/// The running numbers that rank 1 takes from rank 0 until nothing is unread.
fn taken(desk: &mut Desk) -> Vec<u32> {
    let take = log_of("take 1 0");
    let takes = std::iter::from_fn(|| desk.step_sound(&take, 0).answer.ok());
    takes.map(|[.., number]| number).collect()
}

/// The state of ranks 0 and 1 joined, with messages from 0 to 1 of these
/// numbers on the lane, of so many sent.
fn joined_with(numbers: &[u32], sent: u32) -> Snapshot {
    let mut state = desk_after(JOINED).snapshot();
    state.messages.extend(numbers.iter().map(|&number| Message {
        sender: ZERO,
        receiver: ONE,
        value: 70,
        place: 3,
        number,
    }));
    state.sent[0][1] = sent;
    state
}

#[test]
fn each_direction_counts_from_one() {
    let mut desk = desk_after(JOINED);
    values(&mut desk, "send 0 1 5, send 1 0 6, send 0 1 7, send 0 1 8");
    let takes = values(&mut desk, "take 1 0, take 0 1, take 1 0, take 1 0");
    assert_eq!(takes, [[5, 2, 1], [6, 0, 1], [7, 1, 2], [8, 0, 3]]);
    assert_eq!(desk.mail().sent(ZERO, ONE), 3);
    assert_eq!(desk.mail().sent(ONE, ZERO), 1);
}

/// Ranks 0, 1 and 2 each with each other: six counts.
#[test]
fn each_pair_counts_from_one() {
    let mut desk = desk_after(&format!(
        "{JOINED}, start 2 2, call 2 0, route 2 0, call 2 1, route 2 1"
    ));
    let pairs = [(0, 1), (0, 2), (1, 0), (1, 2), (2, 0), (2, 1)];
    for number in 1..=3 {
        for (a, b) in pairs {
            let sent = values(&mut desk, &format!("send {a} {b} 7"));
            assert_eq!(sent, [[number, 0, 0]], "a send has no running number");
        }
    }
    for number in 1..=3 {
        for (a, b) in pairs {
            let taken = values(&mut desk, &format!("take {b} {a}"));
            assert_eq!(taken, [[7, 3 - number, number]]);
        }
    }
}

#[test]
fn numbers_go_on_over_a_part() {
    let mut desk = desk_after(&format!("{JOINED}, send 0 1 5, send 0 1 6, take 1 0"));
    values(&mut desk, "part 1 0, call 1 0, route 1 0, send 0 1 7");
    assert_eq!(taken(&mut desk), [2, 3]);
    values(&mut desk, "part 0 1, call 0 1, route 0 1, send 0 1 8");
    assert_eq!(taken(&mut desk), [4]);
}

/// 1 is taken before, 2 in the list, 3 on the lane, 4 to the mover, 5 to the
/// arrival, 6 after the landing.
#[test]
fn numbers_go_on_over_a_move_and_a_restart() {
    for host in [2, 1] {
        let before = "send 0 1 51, take 1 0, send 0 1 52, part 0 1, call 0 1, route 0 1";
        let mut desk = desk_after(&format!("{JOINED}, {before}, send 0 1 53, move 1 {host}"));
        let joined = "heed 0 1, call 0 1, route 0 1, route 0 1";
        values(&mut desk, &format!("send 0 1 54, {joined}, send 0 1 55"));
        let drains = values(&mut desk, "drain 1 0, drain 1 0, drain 1 0");
        assert_eq!(drains, [[0, 53, 3], [0, 54, 4], [1, 0, 0]]);
        assert_eq!(values(&mut desk, "land 1, send 0 1 56")[0], [3, 0, 0]);
        assert_eq!(taken(&mut desk), [2, 3, 4, 5, 6]);
    }
}

/// The sender's count goes with its rank, and not with its process.
#[test]
fn a_sender_that_moves_counts_on() {
    let mut desk = desk_after(&format!("{JOINED}, send 0 1 5, send 0 1 6, move 0 2"));
    values(&mut desk, "take 1 0, heed 1 0, drain 0 1, land 0");
    values(&mut desk, "call 0 1, route 0 1, send 0 1 7");
    assert_eq!(taken(&mut desk), [2, 3]);
}

/// Both move while messages of both are on the lanes, and on a notice.
#[test]
fn numbers_go_on_over_overlapping_moves() {
    let sends = "send 0 1 5, send 1 0 6, send 1 0 7, take 0 1";
    let mut desk = desk_after(&format!(
        "{JOINED}, {sends}, move 0 2, send 1 0 8, move 1 3"
    ));
    let drains = "drain 0 1, drain 1 0, drain 0 1, drain 0 1, drain 1 0";
    let expected = [[0, 7, 2], [0, 5, 1], [0, 8, 3], [1, 0, 0], [1, 0, 0]];
    assert_eq!(values(&mut desk, drains), expected);
    values(&mut desk, "land 1, land 0, call 1 0, route 1 0, route 1 0");
    values(&mut desk, "send 1 0 9, send 0 1 10");
    let takes = values(
        &mut desk,
        "take 0 1, take 1 0, take 0 1, take 0 1, take 1 0",
    );
    let expected = [[7, 2, 2], [5, 1, 1], [8, 1, 3], [9, 0, 4], [10, 0, 2]];
    assert_eq!(takes, expected);
}

/// A message leaves and another comes, more often than the pair has messages.
#[test]
fn a_full_pair_counts_on() {
    let mut desk = desk_after(JOINED);
    for number in 1..=1_024 {
        assert_eq!(values(&mut desk, "send 0 1 7"), [[number, 0, 0]]);
    }
    for number in 1..=1_030 {
        let turn = values(&mut desk, "take 1 0, send 0 1 7");
        assert_eq!(turn, [[7, 1_023, number], [1_024, 0, 0]]);
    }
    assert_eq!(desk.mail().sent(ZERO, ONE), 2_054);
    assert!(taken(&mut desk).into_iter().eq(1_031..=2_054));
}

#[test]
fn a_refused_send_uses_no_number() {
    let mut desk = desk_after(&format!("{JOINED}, send 0 1 5, part 0 1"));
    let refused = answers_of(&mut desk, &log_of("send 0 1 6, send 0 1 7"));
    assert_eq!(refused, [Err(Refusal::NoLine); 2]);
    values(&mut desk, "call 0 1, route 0 1, send 0 1 8");
    assert_eq!(taken(&mut desk), [1, 2]);
}

/// A gap is sound: the numbers are those of the state that is handed in, and
/// the next is one above the count sent.
#[test]
fn a_gap_that_is_handed_in_stays() {
    let mut desk = Desk::from_snapshot(&joined_with(&[4, 9], 20)).expect("the state is sound");
    let moved = values(
        &mut desk,
        "send 0 1 71, move 1 2, heed 0 1, drain 1 0, drain 1 0",
    );
    assert_eq!(moved[3..], [[0, 70, 4], [0, 70, 9]]);
    let moved = values(&mut desk, "drain 1 0, drain 1 0, land 1");
    assert_eq!(moved, [[0, 71, 21], [1, 0, 0], [3, 0, 0]]);
    assert_eq!(taken(&mut desk), [4, 9, 21]);
}

/// "From 1 in order of sending": the lower part counts by itself.
#[test]
fn the_mail_counts_what_a_pair_has_sent() {
    let mut mail = Mail::empty();
    for number in 1..=5 {
        mail.append(ZERO, ONE, 7, Place::CurrentLane);
        assert_eq!(mail.sent(ZERO, ONE), number);
        assert_eq!(mail.sent(ONE, ZERO), 0);
    }
    mail.take_first(ZERO, ONE);
    assert_eq!(mail.sent(ZERO, ONE), 5);
    let unread = mail.unread_of_pair(ZERO, ONE);
    assert!(unread.map(|(content, _)| content.number).eq(2..=5));
}
