//! The listing of paper 01, "The printed run", to the byte: from the whole
//! log, from a stream, and from the program.

use crate::printed_run::{LISTING, STEPS};
use crate::program::replay;
use crate::text::log_of;
use engine::{run_slice, run_stream};

#[test]
fn whole_log_prints_the_listing() {
    let printed = run_slice(&log_of(STEPS));
    assert_eq!(String::from_utf8(printed).unwrap(), LISTING);
}

#[test]
fn stream_prints_the_listing() {
    let mut printed = Vec::new();
    run_stream(&log_of(STEPS)[..], &mut printed).unwrap();
    assert_eq!(String::from_utf8(printed).unwrap(), LISTING);
}

#[test]
fn program_prints_the_listing() {
    let printed = replay(&log_of(STEPS));
    assert_eq!(String::from_utf8(printed).unwrap(), LISTING);
}

#[test]
fn empty_log_prints_only_the_end() {
    assert_eq!(run_slice(&[]), b"end\n");
    assert_eq!(replay(&[]), b"end\n");
}

#[test]
fn pairs_ascend_by_sender_then_receiver() {
    let joined = "start 0 0, start 1 1, start 2 2, call 0 1, route 0 1, call 0 2, route 0 2, \
        call 1 2, route 1 2";
    let sends = "send 2 0 1, send 2 1 1, send 0 2 1, send 1 0 1, send 0 1 1, send 1 2 1";
    let printed = run_slice(&log_of(&format!("{joined}, {sends}, part 0 1, move 2 5")));
    let printed = String::from_utf8(printed).unwrap();
    let pairs: Vec<&str> = printed.lines().rev().take(7).collect();
    let expected = [
        "end",
        "pair 2 1 0 0 0 1",
        "pair 2 0 0 0 0 1",
        "pair 1 2 0 1 0 0",
        "pair 1 0 0 0 1 0",
        "pair 0 2 0 1 0 0",
        "pair 0 1 0 0 1 0",
    ];
    assert_eq!(pairs, expected);
}
