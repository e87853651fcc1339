//! The logs that paper 01 itself names: its listing, and cases A to J of
//! "Edges to prove".

use crate::log::{log_of, Feed, Log};
use crate::printed_run::STEPS;

/// Each case with its setup and what shows its outcome.
const CASES: [(&str, &str); 10] = [
    ("A", "start 15 7"),
    ("B", "start 16 0"),
    ("C", "start 0 0, start 1 1, start 2 8"),
    ("D", "start 0 0, start 1 1, call 0 0"),
    ("E", "start 0 0, start 1 1, take 0 1, take 1 0"),
    (
        "F",
        "start 0 0, start 1 1, call 0 1, call 1 0, route 0 1, route 0 1, route 1 0, call 0 1, \
            call 1 0, send 0 1 5, send 1 0 6, take 0 1, take 1 0",
    ),
    (
        "G",
        "start 0 0, start 1 1, call 0 1, route 0 1, send 0 1 5, send 1 0 6, move 0 2, move 1 3, \
            heed 0 1, heed 1 0, land 0, drain 0 1, drain 0 1, drain 0 1, land 0, drain 1 0, \
            drain 1 0, land 1, take 0 1, take 1 0",
    ),
    (
        "H",
        "start 0 0, start 1 1, move 0 2, land 0, look 0, land 0",
    ),
    (
        "I",
        "start 0 0, start 1 1, call 0 1, route 0 1, move 1 2, land 1",
    ),
    (
        "J",
        "start 0 0, start 1 1, call 0 1, route 0 1, move 1 2, drain 1 0",
    ),
];

/// The listing, each way a log can come, and the cases.
pub fn logs() -> Vec<Log> {
    let feeds = [Feed::Pipe, Feed::Pieces(1), Feed::Pieces(5), Feed::File];
    let listing = feeds.map(|feed| Log::new("listing", log_of(STEPS), feed));
    let cases =
        CASES.map(|(case, steps)| Log::new(format!("case-{case}"), log_of(steps), Feed::Pipe));
    listing.into_iter().chain(cases).collect()
}
