//! Looks, paper 02, Change 6: "Look now names the sender of the message sent
//! first of all those unread by r, whatever its place." And the state that it
//! is for: "The order of sending over all pairs is kept in the state for it, in
//! step with each pair's."

use crate::text::{answer_after, answers_of, desk_after, desk_after_log, log_of};
use engine::bits::Bits;
use engine::{is_sound, step, Desk, Mail, Refusal, Snapshot};

/// Ranks 1, 2 and 3 each joined with rank 0.
const AROUND: &str = "start 0 0, start 1 1, start 2 2, start 3 3, call 1 0, route 1 0, \
    call 2 0, route 2 0, call 3 0, route 3 0";

/// Whom a look of rank 0 names after these steps.
fn seen_after(steps: &str) -> u32 {
    let answer = answer_after(&format!("{AROUND}, {steps}"), "look 0");
    let [sender, v2, v3] = answer.unwrap();
    assert_eq!([v2, v3], [0, 0]);
    sender
}

/// The values that rank 0 takes, each from the rank that its look names, until
/// it has none unread.
fn served(desk: &mut Desk) -> Vec<u32> {
    let look = log_of("look 0");
    let mut values = Vec::new();
    while let Ok([sender, ..]) = desk.step_sound(&look, 0).answer {
        let answers = answers_of(desk, &log_of(&format!("take 0 {sender}")));
        values.push(answers[0].unwrap()[0]);
    }
    let answer = desk.step_sound(&look, 0).answer;
    assert_eq!(answer, Err(Refusal::NothingUnread));
    values
}

#[test]
fn neither_the_lowest_nor_the_highest_sender_is_named_for_its_rank() {
    assert_eq!(seen_after("send 2 0 5, send 1 0 6, send 3 0 7"), 2);
    assert_eq!(seen_after("send 3 0 5, send 1 0 6, send 2 0 7"), 3);
    assert_eq!(seen_after("send 1 0 5, send 2 0 6, send 3 0 7"), 1);
}

/// "And one sender starved": 1 goes on sending, and 3 is served all the same.
#[test]
fn a_sender_that_goes_on_sending_keeps_nobody_waiting() {
    let sends = "send 1 0 5, send 3 0 6, send 1 0 7, take 0 1, send 1 0 8";
    assert_eq!(seen_after(sends), 3);
    assert_eq!(seen_after(&format!("{sends}, take 0 3")), 1);
}

#[test]
fn a_look_changes_nothing_and_asks_for_no_other_receiver() {
    let mut desk = desk_after(&format!(
        "{AROUND}, send 0 1 4, send 3 0 5, send 2 0 6, send 0 2 7"
    ));
    let before = desk.snapshot();
    let answers = answers_of(&mut desk, &log_of("look 0, look 1, look 2, look 3, look 0"));
    let none = Err(Refusal::NothingUnread);
    let expected = [Ok([3, 0, 0]), Ok([0; 3]), Ok([0; 3]), none, Ok([3, 0, 0])];
    assert_eq!(answers, expected);
    assert_eq!(desk.snapshot(), before);
}

/// The older message is at place 3, the younger at place 2.
#[test]
fn a_higher_place_is_no_later_sending() {
    assert_eq!(seen_after("send 2 0 5, send 1 0 6, part 0 1"), 2);
    assert_eq!(seen_after("send 1 0 5, send 2 0 6, part 2 0"), 1);
}

/// The older message has number 3 of its pair, the younger number 1.
#[test]
fn a_higher_running_number_is_no_later_sending() {
    let numbers = "send 3 0 5, take 0 3, send 3 0 6, take 0 3, send 3 0 7, send 1 0 8";
    assert_eq!(seen_after(numbers), 3);
}

#[test]
fn an_ended_sender_is_named() {
    let ended = "send 2 0 5, part 2 0, end 2, send 1 0 6";
    assert_eq!(seen_after(ended), 2);
    assert_eq!(seen_after(&format!("{ended}, take 0 2")), 1);
}

/// 20 is on the lane and 10 in the list when rank 0 moves, 3 moves too, and 11
/// goes to the arrival; 21 and 12 come after the landing.
#[test]
fn the_order_is_kept_over_moves_that_overlap() {
    let before = "send 2 0 20, send 1 0 10, part 1 0";
    let during = "move 0 4, move 3 5, call 1 0, route 1 0, route 1 0, send 1 0 11, heed 2 0, \
        drain 0 2, drain 0 2, drain 0 3";
    let moving = format!("{AROUND}, {before}, {during}");
    assert_eq!(answer_after(&moving, "look 0"), Err(Refusal::RankMoving));
    let landed = format!("{before}, {during}, land 0");
    assert_eq!(seen_after(&landed), 2);
    assert_eq!(seen_after(&format!("{landed}, take 0 2")), 1);
    let after = "call 2 0, route 2 0, route 2 0, send 2 0 21, send 1 0 12";
    assert_eq!(seen_after(&format!("{landed}, {after}, take 0 2")), 1);
    let mut desk = desk_after(&format!("{AROUND}, {landed}, {after}"));
    assert_eq!(served(&mut desk), [20, 10, 11, 21, 12]);
}

/// 10 goes to the mover after 30, and is drained before it.
#[test]
fn the_order_of_draining_is_not_the_order_of_sending() {
    let moves = "send 3 0 30, move 0 4, send 1 0 10, heed 1 0, heed 2 0, heed 3 0, drain 0 1, \
        drain 0 1, drain 0 2, drain 0 3, drain 0 3, land 0";
    assert_eq!(seen_after(moves), 3);
}

/// Rank 0 restarts twice on its own host; 30 is carried over both.
#[test]
fn the_order_is_kept_over_parts_and_restarts() {
    let first = "send 3 0 30, part 3 0, send 2 0 20, move 0 0, heed 1 0, heed 2 0, drain 0 1, \
        drain 0 2, drain 0 2, land 0";
    let between = "call 1 0, route 1 0, route 1 0, send 1 0 10, call 3 0, route 3 0, route 3 0, \
        send 3 0 31";
    let second = "move 0 0, heed 3 0, heed 1 0, drain 0 1, drain 0 1, drain 0 3, drain 0 3, land 0";
    assert_eq!(seen_after(&format!("{first}, {between}")), 3);
    assert_eq!(seen_after(&format!("{first}, {between}, take 0 3")), 2);
    let mut desk = desk_after(&format!("{AROUND}, {first}, {between}, {second}"));
    assert_eq!(served(&mut desk), [30, 20, 10, 31]);
}

/// All ranks joined with rank 0.
fn star() -> String {
    let joined = (1..16).map(|rank| format!(", start {rank} 1, call {rank} 0, route {rank} 0"));
    "start 0 0".to_owned() + &joined.collect::<String>()
}

/// Sends to rank 0 with these values, each from any sender.
fn sends(bits: &mut Bits, values: std::ops::Range<u32>) -> String {
    let sends = values.map(|value| format!(", send {} 0 {value}", 1 + bits.below(15)));
    sends.collect()
}

/// 15 senders fill the desk in any order.
#[test]
fn a_full_desk_is_emptied_in_the_order_of_sending() {
    let full = Mail::LIMIT as u32;
    let mut bits = Bits::new(61);
    let mut desk = desk_after(&(star() + &sends(&mut bits, 0..full)));
    let refused = desk.step_sound(&log_of("send 1 0 9"), 0).answer;
    assert_eq!(refused, Err(Refusal::DeskFull));
    assert!(served(&mut desk).into_iter().eq(0..full));
}

/// Half of what is sent is drained by the mover, and half comes to the arrival.
#[test]
fn a_receiver_that_moves_is_served_in_the_order_of_sending() {
    let mut bits = Bits::new(62);
    let before = star() + &sends(&mut bits, 0..300) + ", move 0 2" + &sends(&mut bits, 300..400);
    let mut log = log_of(&before);
    for rank in 1..16 {
        let again = "heed R 0, call R 0, route R 0, route R 0".replace('R', &rank.to_string());
        log.extend(log_of(&again));
    }
    log.extend(log_of(&sends(&mut bits, 400..700)));
    let mut desk = desk_after_log(&log);
    for rank in 1..16 {
        let drain = log_of(&format!("drain 0 {rank}"));
        while desk.step_sound(&drain, 0).answer.is_ok() {}
    }
    let landed = desk.step_sound(&log_of("land 0"), 0).answer;
    assert_eq!(landed, Ok([400, 0, 0]));
    assert!(served(&mut desk).into_iter().eq(0..700));
}

/// A state in which 3 sent to rank 0 before 1 did, and the same with these two
/// messages in the other order.
fn either_way() -> [Snapshot; 2] {
    let first = desk_after(&format!("{AROUND}, send 3 0 5, send 1 0 6")).snapshot();
    let mut second = first.clone();
    second.messages.swap(0, 1);
    [first, second]
}

#[test]
fn messages_of_two_pairs_in_another_order_are_another_state() {
    let [first, second] = either_way();
    assert!(is_sound(&first) && is_sound(&second));
    assert_ne!(first, second);
    for (mut state, seen) in [(first, 3), (second, 1)] {
        let outcome = step(&mut state, &log_of("look 0"), 0);
        assert_eq!(outcome.answer, Ok([seen, 0, 0]));
    }
}

#[test]
fn a_state_that_is_handed_in_keeps_its_order() {
    for state in either_way() {
        assert_eq!(Desk::from_snapshot(&state).unwrap().snapshot(), state);
        let mut changed = state.clone();
        for record in ["send 2 0 7", "part 1 0", "send 3 0 8", "move 0 4"] {
            assert!(step(&mut changed, &log_of(record), 0).answer.is_ok());
        }
        let values = |state: &Snapshot| state.messages.iter().map(|m| m.value).collect::<Vec<_>>();
        assert_eq!(values(&changed), [values(&state), vec![7, 8]].concat());
    }
}
