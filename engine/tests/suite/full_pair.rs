//! One pair with all 1,024 messages that a desk can have unread, paper 02,
//! Change 3: "The unread count of a pair never passes 1,024." Here it is the
//! pair of rank 0, which sends the values 1 to 1,024, and rank 1; so a message's
//! value is its running number too.

use crate::text::{answers_of, desk_after, log_of, JOINED, TWO};
use engine::{is_sound, Answer, Content, Desk, Mail, PairCount, Place, Rank, Refusal};
use std::ops::RangeInclusive;

const ZERO: Rank = Rank(0);
const ONE: Rank = Rank(1);

fn answer(desk: &mut Desk, record: &str) -> Answer {
    desk.step_sound(&log_of(record), 0).answer
}

fn counts(desk: &Desk) -> [PairCount; 4] {
    desk.mail().counts(ZERO, ONE)
}

/// Rank 0 sends these; nothing was taken before.
fn send(desk: &mut Desk, values: RangeInclusive<u32>) {
    for value in values {
        let record = format!("send 0 1 {value}");
        assert_eq!(answer(desk, &record), Ok([value, 0, 0]));
    }
}

/// The mover drains these.
fn drain(desk: &mut Desk, values: RangeInclusive<u32>) {
    for value in values {
        assert_eq!(answer(desk, "drain 1 0"), Ok([0, value, value]));
    }
}

/// Rank 1 takes all, in order, and then there is none.
fn take_all(desk: &mut Desk) {
    for value in 1..=1_024 {
        let left = 1_024 - value;
        assert_eq!(answer(desk, "take 1 0"), Ok([value, left, value]));
    }
    assert_eq!(answer(desk, "take 1 0"), Err(Refusal::NothingUnread));
    assert_eq!(desk.mail().unread(), 0);
}

/// Rank 1, whose mover has all in its list, lands and takes them.
fn land_with_all(desk: &mut Desk) {
    assert_eq!(answer(desk, "land 1"), Ok([1_024, 0, 0]));
    assert_eq!(counts(desk), [0, 0, 1_024, 0]);
    take_all(desk);
}

/// All are on the lane.
fn full_lane() -> Desk {
    let mut desk = desk_after(JOINED);
    send(&mut desk, 1..=1_024);
    desk
}

/// All are in the list.
fn full_list() -> Desk {
    let mut desk = full_lane();
    assert_eq!(answer(&mut desk, "part 0 1"), Ok([0, 1_024, 0]));
    desk
}

/// "Counted, kept and handed out there in 16 bits."
#[test]
fn the_mail_counts_a_pair_in_sixteen_bits() {
    let mut mail = Mail::empty();
    for count in 1..=1_024 {
        let unread: u16 = mail.append(ZERO, ONE, 7, Place::CurrentLane);
        assert_eq!(unread, count);
    }
    let moved: u16 = mail.shift(ZERO, ONE, Place::CurrentLane, Place::CurrentList);
    let counts: [u16; 4] = mail.counts(ZERO, ONE);
    assert_eq!((moved, counts), (1_024, [0, 0, 1_024, 0]));
    let taken: Option<(Content, u16)> = mail.take_first(ZERO, ONE);
    let unread: u16 = mail.unread_between(ZERO, ONE);
    let (value, number) = (7, 1);
    let content = Content { value, number };
    assert_eq!((taken, unread), (Some((content, 1_023)), 1_023));
}

#[test]
fn the_count_rises_to_1024_and_falls_to_0() {
    let mut desk = desk_after(JOINED);
    let mut sent = 0;
    for count in [255, 256, 257, 511, 512, 1_023, 1_024] {
        send(&mut desk, sent + 1..=u32::from(count));
        assert_eq!(counts(&desk), [0, 0, 0, count]);
        assert_eq!(desk.mail().unread_between(ZERO, ONE), count);
        sent = u32::from(count);
    }
    for record in ["send 0 1 1025", "send 1 0 1"] {
        assert_eq!(answer(&mut desk, record), Err(Refusal::DeskFull));
    }
    take_all(&mut desk);
}

#[test]
fn a_part_moves_1024_whichever_rank_is_first() {
    for (record, moved) in [("part 0 1", [0, 1_024, 0]), ("part 1 0", [1_024, 0, 0])] {
        let mut desk = full_lane();
        assert_eq!(answer(&mut desk, record), Ok(moved));
        assert_eq!(counts(&desk), [0, 0, 1_024, 0]);
        take_all(&mut desk);
    }
}

/// To another host, and to its own.
#[test]
fn a_move_takes_1024_from_the_lane_by_drains() {
    for (record, arrival) in [("move 1 2", [2, 1, 1]), ("move 1 1", [1, 2, 1])] {
        let mut desk = full_lane();
        assert_eq!(answer(&mut desk, record), Ok(arrival));
        assert_eq!(counts(&desk), [0, 1_024, 0, 0]);
        assert_eq!(answer(&mut desk, "heed 0 1"), Ok([0, 0, 0]));
        drain(&mut desk, 1..=1_023);
        assert_eq!(counts(&desk), [1_023, 1, 0, 0]);
        drain(&mut desk, 1_024..=1_024);
        assert_eq!(counts(&desk), [1_024, 0, 0, 0]);
        assert_eq!(answer(&mut desk, "drain 1 0"), Ok([1, 0, 0]));
        land_with_all(&mut desk);
    }
}

/// To another host, and to its own.
#[test]
fn a_move_takes_1024_from_the_list_at_once() {
    for (record, arrival) in [("move 1 2", [2, 1, 0]), ("move 1 1", [1, 2, 0])] {
        let mut desk = full_list();
        assert_eq!(answer(&mut desk, record), Ok(arrival));
        assert_eq!(counts(&desk), [1_024, 0, 0, 0]);
        land_with_all(&mut desk);
    }
}

#[test]
fn a_heed_moves_1024() {
    let mut desk = full_lane();
    assert_eq!(answer(&mut desk, "move 0 2"), Ok([2, 1, 1]));
    assert_eq!(counts(&desk), [0, 0, 0, 1_024]);
    assert_eq!(answer(&mut desk, "heed 1 0"), Ok([1_024, 0, 0]));
    assert_eq!(counts(&desk), [0, 0, 1_024, 0]);
    assert_eq!(answer(&mut desk, "drain 0 1"), Ok([1, 0, 0]));
    assert_eq!(answer(&mut desk, "land 0"), Ok([0, 0, 0]));
    take_all(&mut desk);
}

#[test]
fn an_arrival_heeds_1024_and_lands_with_them() {
    let mut desk = desk_after(&format!("{TWO}, move 1 2, call 0 1, route 0 1, route 0 1"));
    send(&mut desk, 1..=1_024);
    assert_eq!(answer(&mut desk, "move 0 3"), Ok([3, 1, 1]));
    assert_eq!(answer(&mut desk, "heed 1 0"), Ok([1_024, 0, 0]));
    assert_eq!(counts(&desk), [0, 0, 1_024, 0]);
    assert_eq!(answer(&mut desk, "land 1"), Ok([1_024, 0, 0]));
    take_all(&mut desk);
}

#[test]
fn sends_on_a_notice_go_up_to_1024() {
    let mut desk = desk_after(JOINED);
    send(&mut desk, 1..=1_000);
    assert_eq!(answer(&mut desk, "move 1 2"), Ok([2, 1, 1]));
    drain(&mut desk, 1..=300);
    send(&mut desk, 1_001..=1_024);
    assert_eq!(counts(&desk), [300, 724, 0, 0]);
    assert_eq!(answer(&mut desk, "send 0 1 9"), Err(Refusal::DeskFull));
    drain(&mut desk, 301..=1_024);
    assert_eq!(counts(&desk), [1_024, 0, 0, 0]);
    assert_eq!(answer(&mut desk, "drain 1 0"), Err(Refusal::NothingToDrain));
    assert_eq!(answer(&mut desk, "heed 0 1"), Ok([0, 0, 0]));
    assert_eq!(answer(&mut desk, "drain 1 0"), Ok([1, 0, 0]));
    land_with_all(&mut desk);
}

/// The receiver moves with 256 in its list and 256 on the lane; 256 go to the
/// arrival, which heeds the sender's move; the sender lands and sends the rest.
#[test]
fn a_full_pair_has_256_at_each_place() {
    let mut desk = desk_after(JOINED);
    send(&mut desk, 1..=256);
    for (steps, values) in [
        ("part 0 1, call 0 1, route 0 1", 257..=512),
        (
            "move 1 2, heed 0 1, call 0 1, route 0 1, route 0 1",
            513..=768,
        ),
        (
            "move 0 3, heed 1 0, drain 0 1, land 0, call 0 1, route 0 1",
            769..=1_024,
        ),
    ] {
        let answers = answers_of(&mut desk, &log_of(steps));
        assert!(answers.iter().all(Result::is_ok), "{steps}");
        send(&mut desk, values);
    }
    assert_eq!(counts(&desk), [256; 4]);
    assert!(is_sound(&desk.snapshot()));
    assert_eq!(answer(&mut desk, "send 0 1 9"), Err(Refusal::DeskFull));
    drain(&mut desk, 257..=512);
    assert_eq!(counts(&desk), [512, 0, 256, 256]);
    assert_eq!(answer(&mut desk, "drain 1 0"), Ok([1, 0, 0]));
    assert_eq!(answer(&mut desk, "land 1"), Ok([768, 0, 0]));
    assert_eq!(counts(&desk), [0, 0, 768, 256]);
    take_all(&mut desk);
}

#[test]
fn a_rank_with_1024_unread_does_not_end_until_they_are_taken() {
    let mut desk = full_list();
    assert_eq!(answer(&mut desk, "end 1"), Err(Refusal::UnreadRemain));
    assert_eq!(answer(&mut desk, "look 1"), Ok([0, 0, 0]));
    assert_eq!(answer(&mut desk, "take 0 1"), Err(Refusal::NothingUnread));
    assert_eq!(answer(&mut desk, "look 0"), Err(Refusal::NothingUnread));
    assert_eq!(answer(&mut desk, "end 0"), Ok([0, 0, 0]));
    take_all(&mut desk);
    assert_eq!(answer(&mut desk, "end 1"), Ok([0, 0, 0]));
}
