//! Restarts, paper 02, Change 2: "A move to the rank's present host is accepted
//! and draws a number like any other."

use crate::refused_records::CROWD;
use crate::text::{
    answer_after, answers_of, desk_after, desk_after_log, log_of, number_after, JOINED, TWO,
};
use engine::{Await, Desk, Host, Line, Rank, Refusal, Standing, Vmid};

const ZERO: Rank = Rank(0);
const ONE: Rank = Rank(1);

/// Ranks 0 and 1 joined, both on host 3.
const TOGETHER: &str = "start 0 3, start 1 3, call 0 1, route 0 1";

/// Rank 1, to which rank 0 has a line and has sent nothing over it, restarts
/// on host 1 and lands.
const RESTARTED: &str = "move 1 1, heed 0 1, drain 1 0, land 1";

/// The values that rank 1 takes from rank 0 until nothing is unread, each with
/// its running number.
fn taken(desk: &mut Desk) -> Vec<(u32, u32)> {
    let take = log_of("take 1 0");
    let takes = std::iter::from_fn(|| desk.step_sound(&take, 0).answer.ok());
    takes.map(|[value, _, number]| (value, number)).collect()
}

#[test]
fn a_restart_draws_the_next_number_of_its_host() {
    assert_eq!(answer_after(TWO, "move 0 0"), Ok([0, 2, 0]));
    assert_eq!(answer_after(JOINED, "move 1 1"), Ok([1, 2, 1]));
    assert_eq!(answer_after(TOGETHER, "move 0 3"), Ok([3, 3, 1]));
    assert_eq!(answer_after(CROWD, "move 0 0"), Ok([0, 2, 2]));
    assert_eq!(answer_after(CROWD, "move 1 1"), Ok([1, 2, 1]));
    let desk = desk_after(&format!("{TWO}, move 0 0"));
    let (mover, arrival) = (Vmid(Host(0), 1), Vmid(Host(0), 2));
    assert_eq!(desk.standing(ZERO), Standing::Moving { mover, arrival });
    assert_eq!(desk.drawn(Host(0)), 2);
}

#[test]
fn a_restart_without_lines_lands_at_once() {
    let mut desk = desk_after("start 0 0, move 0 0");
    assert_eq!(answers_of(&mut desk, &log_of("land 0")), [Ok([0; 3])]);
    assert_eq!(desk.standing(ZERO), Standing::Running(Vmid(Host(0), 2)));
}

/// "Table entries change nowhere else": a call goes to the old process, though
/// the host is the same.
#[test]
fn a_call_after_a_restart_misses_once() {
    let mut desk = desk_after(&format!("{JOINED}, {RESTARTED}"));
    assert_eq!(desk.table_entry(ZERO, ONE), Vmid(Host(1), 1));
    let answers = answers_of(&mut desk, &log_of("call 0 1, route 0 1, route 0 1"));
    assert_eq!(answers, [Ok([1, 1, 0]), Ok([1, 1, 2]), Ok([0, 1, 2])]);
    assert_eq!(desk.line(ZERO, ONE), Line::Plain);
    assert_eq!(desk.table_entry(ZERO, ONE), Vmid(Host(1), 2));
}

/// 1 is in the list and 2 on the lane when rank 1 restarts; 3 goes to the
/// mover, 4 to the arrival, 5 to the process that has landed.
#[test]
fn messages_before_during_and_after_a_restart_keep_their_order() {
    let before = format!("{JOINED}, send 0 1 1, part 0 1, call 0 1, route 0 1, send 0 1 2");
    let during = "move 1 1, send 0 1 3, heed 0 1, call 0 1, route 0 1, route 0 1, send 0 1 4";
    let mut desk = desk_after(&format!("{before}, {during}"));
    assert_eq!(desk.mail().counts(ZERO, ONE), [1, 2, 0, 1]);
    let answers = answers_of(
        &mut desk,
        &log_of("land 1, drain 1 0, drain 1 0, drain 1 0, land 1, send 0 1 5"),
    );
    let expected = [
        Err(Refusal::AwaitStands),
        Ok([0, 2, 2]),
        Ok([0, 3, 3]),
        Ok([1, 0, 0]),
        Ok([3, 0, 0]),
        Ok([5, 0, 0]),
    ];
    assert_eq!(answers, expected);
    assert_eq!(taken(&mut desk), [(1, 1), (2, 2), (3, 3), (4, 4), (5, 5)]);
}

/// 1 is carried over both restarts, 2 over the second.
#[test]
fn a_rank_restarts_twice() {
    let before = format!("{JOINED}, send 0 1 1, part 0 1, call 0 1, route 0 1");
    let again = "call 0 1, route 0 1, route 0 1, send 0 1 2";
    let mut desk = desk_after(&format!("{before}, {RESTARTED}, {again}"));
    let answers = answers_of(&mut desk, &log_of("move 1 1, heed 0 1, drain 1 0"));
    assert_eq!(answers, [Ok([1, 3, 1]), Ok([0; 3]), Ok([0, 2, 2])]);
    let answers = answers_of(&mut desk, &log_of("drain 1 0, land 1, call 0 1, route 0 1"));
    let expected = [Ok([1, 0, 0]), Ok([2, 0, 0]), Ok([1, 2, 0]), Ok([1, 1, 3])];
    assert_eq!(answers, expected);
    answers_of(&mut desk, &log_of("route 0 1, send 0 1 3"));
    assert_eq!(taken(&mut desk), [(1, 1), (2, 2), (3, 3)]);
}

/// As in case G of paper 01, both on one host.
#[test]
fn joined_ranks_that_restart_at_once_need_no_heed() {
    let both = format!("{TOGETHER}, send 0 1 5, send 1 0 6, move 0 3, send 1 0 7, move 1 3");
    let mut desk = desk_after(&both);
    assert_eq!(desk.awaits(ZERO, ONE), Await::Marked);
    assert_eq!(desk.awaits(ONE, ZERO), Await::Marked);
    assert_eq!(number_after(&both, "heed 0 1"), 17);
    assert_eq!(number_after(&both, "heed 1 0"), 17);
    let drains = "drain 0 1, drain 1 0, drain 0 1, drain 1 0, drain 0 1, land 1, land 0";
    let answers = answers_of(&mut desk, &log_of(drains));
    let expected = [
        Ok([0, 6, 1]),
        Ok([0, 5, 1]),
        Ok([0, 7, 2]),
        Ok([1, 0, 0]),
        Ok([1, 0, 0]),
        Ok([1, 0, 0]),
        Ok([2, 0, 0]),
    ];
    assert_eq!(answers, expected);
    assert_eq!(desk.standing(ZERO), Standing::Running(Vmid(Host(3), 3)));
    assert_eq!(desk.standing(ONE), Standing::Running(Vmid(Host(3), 4)));
    let answers = answers_of(&mut desk, &log_of("take 0 1, take 0 1, take 1 0"));
    assert_eq!(answers, [Ok([6, 1, 1]), Ok([7, 0, 2]), Ok([5, 0, 1])]);
}

#[test]
fn a_moving_rank_does_not_restart() {
    for host in [0, 4] {
        let restart = format!("move 0 {host}");
        assert_eq!(number_after("start 0 0, move 0 4", &restart), 10);
    }
    assert_eq!(number_after("start 0 0, move 0 0", "move 0 0"), 10);
}

#[test]
fn a_rank_with_a_call_open_does_not_restart() {
    let calling = format!("{TWO}, call 0 1");
    assert_eq!(number_after(&calling, "move 0 0"), 13);
    let called = answer_after(&calling, "move 1 1");
    assert_eq!(called, Ok([1, 2, 0]), "a call of another is no hindrance");
}

#[test]
fn restarts_draw_number_65535_then_25() {
    let mut log = log_of("start 0 0");
    log.extend(log_of("move 0 0, land 0").repeat(65_533));
    let mut desk = desk_after_log(&log);
    let last = "move 0 0, land 0, move 0 0, start 1 0, move 0 1";
    let answers = answers_of(&mut desk, &log_of(last));
    let exhausted = Err(Refusal::NumbersExhausted);
    let expected = [
        Ok([0, 65_535, 0]),
        Ok([0; 3]),
        exhausted,
        exhausted,
        Ok([1, 1, 0]),
    ];
    assert_eq!(answers, expected);
}

/// "Number 18 is given no more."
#[test]
fn no_refusal_has_the_number_18() {
    assert_eq!(Refusal::from_number(18), None);
    assert_eq!(Refusal::WITHDRAWN.map(|(number, ..)| number), [18]);
}
