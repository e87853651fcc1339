//! Cases A to J of paper 01, "Edges to prove", and the two edges that are run
//! by program: the 1,024th message and the 65,535th number.

use crate::text::{
    answer_after, answers_of, desk_after, desk_after_log, log_of, number_after, JOINED, TWO,
};
use engine::{Await, Desk, Host, Line, Mail, Rank, Refusal, Vmid};

const ZERO: Rank = Rank(0);
const ONE: Rank = Rank(1);

#[test]
fn a_start_15_on_7_accepted() {
    assert_eq!(answer_after("", "start 15 7"), Ok([7, 1, 0]));
}

#[test]
fn b_start_16_gives_4() {
    assert_eq!(number_after("", "start 16 0"), 4);
}

#[test]
fn c_start_2_on_8_gives_5() {
    assert_eq!(number_after(TWO, "start 2 8"), 5);
}

#[test]
fn d_call_0_0_gives_6() {
    assert_eq!(number_after(TWO, "call 0 0"), 6);
}

#[test]
fn e_take_with_nothing_sent_gives_22() {
    assert_eq!(number_after(TWO, "take 0 1"), 22);
    assert_eq!(number_after(TWO, "take 1 0"), 22);
}

#[test]
fn f_crossing_calls_both_close_at_one_route() {
    let crossing = "start 0 0, start 1 1, call 0 1, call 1 0";
    assert_eq!(answer_after(crossing, "route 0 1"), Ok([0, 1, 1]));
    let routed = format!("{crossing}, route 0 1");
    let desk = desk_after(&routed);
    assert_eq!((desk.call(ZERO), desk.call(ONE)), (None, None));
    assert_eq!(desk.line(ZERO, ONE), Line::Plain);
    assert_eq!(desk.line(ONE, ZERO), Line::Plain);
    assert_eq!(number_after(&routed, "route 1 0"), 14);
}

#[test]
fn g_joined_ranks_that_both_move_need_no_heed() {
    let both = format!("{JOINED}, move 0 2, move 1 3");
    let desk = desk_after(&both);
    assert_eq!(desk.awaits(ZERO, ONE), Await::Marked);
    assert_eq!(desk.awaits(ONE, ZERO), Await::Marked);
    assert_eq!(desk.line(ZERO, ONE), Line::None);
    assert_eq!(desk.line(ONE, ZERO), Line::None);
    assert_eq!(number_after(&both, "heed 0 1"), 17);
    assert_eq!(number_after(&both, "heed 1 0"), 17);
    desk_after(&format!("{both}, drain 0 1, drain 1 0, land 0, land 1"));
}

#[test]
fn h_move_without_lines_lands_at_once() {
    assert_eq!(answer_after(TWO, "move 0 2"), Ok([2, 1, 0]));
    let moving = format!("{TWO}, move 0 2");
    assert_eq!(answer_after(&moving, "land 0"), Ok([0, 0, 0]));
}

#[test]
fn i_land_with_await_unheeded_gives_19() {
    let moving = format!("{JOINED}, move 1 2");
    assert_eq!(desk_after(&moving).awaits(ONE, ZERO), Await::Unheeded);
    assert_eq!(number_after(&moving, "land 1"), 19);
}

#[test]
fn j_drain_of_an_unheeded_await_gives_21() {
    assert_eq!(
        number_after(&format!("{JOINED}, move 1 2"), "drain 1 0"),
        21
    );
}

#[test]
fn sends_up_to_1024_accepted_then_24() {
    let mut desk = desk_after(JOINED);
    let send = log_of("send 0 1 4294967295");
    for unread in 1..=1_024 {
        assert_eq!(desk.step_sound(&send, 0).answer, Ok([unread, 0, 0]));
    }
    assert_eq!(desk.mail().unread(), Mail::LIMIT);
    let full = desk.snapshot();
    assert_eq!(desk.step_sound(&send, 0).answer, Err(Refusal::DeskFull));
    let answers = answers_of(&mut desk, &log_of("send 1 0 5"));
    assert_eq!(answers, [Err(Refusal::DeskFull)], "the limit is the desk's");
    assert_eq!(desk.snapshot(), full);
    let answers = answers_of(&mut desk, &log_of("take 1 0, send 1 0 5, send 1 0 6"));
    let expected = [
        Ok([u32::MAX, 1_023, 1]),
        Ok([1, 0, 0]),
        Err(Refusal::DeskFull),
    ];
    assert_eq!(answers, expected);
}

/// Rank 0 runs on host 0, where 65,535 numbers are drawn; 65,534 on host 1.
pub fn nearly_exhausted() -> Vec<u8> {
    let mut log = log_of("start 0 0");
    log.extend(log_of("move 0 1, land 0, move 0 0, land 0").repeat(65_534));
    log
}

fn numbers_drawn(desk: &Desk) -> (u16, u16) {
    (desk.drawn(Host(0)), desk.drawn(Host(1)))
}

#[test]
fn move_draws_number_65535_then_25() {
    let mut desk = desk_after_log(&nearly_exhausted());
    assert_eq!(numbers_drawn(&desk), (65_535, 65_534));
    assert_eq!(
        desk.standing(ZERO).current_end(),
        Some(Vmid(Host(0), 65_535))
    );
    let answers = answers_of(
        &mut desk,
        &log_of("move 0 1, land 0, move 0 0, start 1 0, start 1 1"),
    );
    let exhausted = Err(Refusal::NumbersExhausted);
    let expected = [
        Ok([1, 65_535, 0]),
        Ok([0; 3]),
        exhausted,
        exhausted,
        exhausted,
    ];
    assert_eq!(answers, expected);
    assert_eq!(numbers_drawn(&desk), (65_535, 65_535));
}

#[test]
fn start_draws_number_65535_then_25() {
    let mut desk = desk_after_log(&nearly_exhausted());
    let answers = answers_of(
        &mut desk,
        &log_of("start 1 1, start 2 1, move 0 1, start 2 2"),
    );
    let exhausted = Err(Refusal::NumbersExhausted);
    assert_eq!(
        answers,
        [Ok([1, 65_535, 0]), exhausted, exhausted, Ok([2, 1, 0])]
    );
}
