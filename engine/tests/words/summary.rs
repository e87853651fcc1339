//! The summary below the run's end.

use crate::program::{assert_told, log_of, told_of};

/// The summary of some steps, with the lines of pairs before it.
fn summary_of(name: &str, steps: &str) -> Option<String> {
    let told = told_of(name, &log_of(steps))?;
    let at = told.find("\npair ").or(told.find("\nend\n")).unwrap();
    Some(told[at + 1..].to_owned())
}

/// Two moves are open. Of the messages from 0 to 1 one was sent in time to be
/// in the mover's list, one to be on the lane to it, and two to the arrival.
const OPEN_MOVES: &str = "start 0 0, start 1 1, call 0 1, route 0 1, send 0 1 1, part 0 1, \
    call 0 1, route 0 1, send 0 1 2, send 1 0 5, move 1 2, heed 0 1, call 0 1, route 0 1, \
    route 0 1, send 0 1 3, part 0 1, call 0 1, route 0 1, send 0 1 4, start 15 2, move 15 7, \
    land 1";

#[test]
fn open_moves_and_unread_messages_are_told_by_rank_and_by_place() {
    let Some(summary) = summary_of("open-moves.log", OPEN_MOVES) else {
        return;
    };
    let expected = "\
pair 0 1 1 1 1 1
pair 1 0 0 0 1 0
end
    23 records: 22 accepted, 1 refused.
    1 refused with 19: a landing while there is still an await.
    The move of rank 1 to 2.1 is still open.
    The move of rank 15 to 7.1 is still open.
    From rank 0 to rank 1: 4 unread, 1 in the mover's list, 1 on the lane to the mover, \
1 in the list of the current end, 1 on the lane to the current end.
    From rank 1 to rank 0: 1 unread, 1 in the list of the current end.
";
    assert_eq!(summary, expected);
}

#[test]
fn refusals_are_counted_by_number() {
    let steps = "look 0, start 16 0, look 16, look 3, start 0 0, take 0 1, land 0";
    let Some(summary) = summary_of("counted.log", steps) else {
        return;
    };
    let expected = "\
end
    7 records: 1 accepted, 6 refused.
    2 refused with 4: a rank above 15.
    3 refused with 7: a rank that is unstarted.
    1 refused with 11: a drain or a landing of a rank that is not moving.
    No move is open.
    Nothing is unread.
";
    assert_eq!(summary, expected);
}

#[test]
fn a_run_of_one_record_is_counted() {
    let Some(summary) = summary_of("one.log", "start 0 0") else {
        return;
    };
    assert!(summary.starts_with("end\n    1 record: 1 accepted, none refused.\n"));
}

#[test]
fn an_empty_log_has_a_summary_alone() {
    let expected = "\
end
    No records: the log is empty.
    No move is open.
    Nothing is unread.
";
    assert_told("empty.log", b"", expected);
    assert_told("blank.txt", b"\n# nothing\n", expected);
}
