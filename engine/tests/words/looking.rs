//! Looks, in the words of paper 02, Change 6: "Look now names the sender of the
//! message sent first of all those unread by r".

use crate::program::{log_of, told_of};

/// Rank 2's message is sent before those of rank 0.
const STEPS: &str = "start 0 0, start 1 1, start 2 2, call 0 1, route 0 1, call 2 1, route 2 1, \
    send 2 1 5, send 0 1 6, send 0 1 7, look 1, take 1 0, look 1, take 1 2, look 1";

#[test]
fn the_oldest_is_told() {
    let Some(told) = told_of("looking.log", &log_of(STEPS)) else {
        return;
    };
    let looks = told
        .lines()
        .filter_map(|line| line.strip_prefix("    look 1: "));
    let first_from = |rank| {
        format!(
            "rank 1 looks: of all messages unread by it, the one sent first is from rank {rank}."
        )
    };
    assert!(looks.eq([2, 2, 0].map(first_from)), "{told}");
}
