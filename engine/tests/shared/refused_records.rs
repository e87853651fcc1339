//! Records that get each number of paper 01's table from 4 to 23 but 18, which is
//! given no more (paper 02, Change 2). Later numbers need a desk at its limits.

/// Ranks 0 and 1 joined, rank 2 ended, rank 3 moving with an await of 0 that
/// is unheeded, so that 0's line to 3 is notice; rank 4 unstarted.
pub const CROWD: &str = "start 0 0, start 1 1, call 0 1, route 0 1, start 2 2, end 2, start 3 3, \
    call 0 3, route 0 3, move 3 4";

/// Rank 0 started, nobody else.
const ALONE: &str = "start 0 0";

/// A number of the table, a setup, and records that then get that number.
pub type Row = (u8, &'static str, &'static [&'static str]);

#[rustfmt::skip]
pub const ROWS: &[Row] = &[
    (4, ALONE, &["start 16 0", "start 255 9", "move 16 0", "land 16", "end 16", "look 255",
        "call 16 0", "route 16 0", "send 16 0 1", "take 16 0", "heed 16 0", "drain 16 0",
        "part 16 0", "call 0 16", "route 0 16", "send 0 16 1", "take 0 16", "heed 0 16",
        "drain 0 16", "part 0 16", "call 16 16", "part 255 255"]),
    (5, CROWD, &["start 4 8", "start 0 8", "move 0 8", "move 4 255", "move 2 8", "move 3 8"]),
    (6, CROWD, &["call 0 0", "route 0 0", "send 0 0 1", "take 0 0", "heed 0 0", "drain 3 3",
        "part 0 0", "call 4 4", "send 2 2 1"]),
    (7, CROWD, &["call 4 0", "route 4 0", "send 4 0 1", "take 4 0", "move 4 0", "heed 4 0",
        "drain 4 0", "land 4", "part 4 0", "end 4", "look 4",
        "call 0 4", "route 0 4", "send 0 4 1", "take 0 4", "heed 0 4", "drain 3 4", "part 0 4",
        "call 2 4", "send 3 4 1", "drain 2 4"]),
    (8, CROWD, &["start 0 0", "start 2 2", "start 3 5"]),
    (9, CROWD, &["call 2 0", "send 2 0 1", "take 2 0", "move 2 0", "heed 2 0", "drain 2 0",
        "land 2", "part 2 0", "end 2", "look 2", "move 2 2"]),
    (10, CROWD, &["call 3 0", "send 3 0 1", "take 3 0", "move 3 5", "part 3 0", "end 3", "look 3",
        "move 3 4"]),
    (11, CROWD, &["drain 0 1", "drain 0 3", "land 0"]),
    (12, CROWD, &["call 0 1", "call 1 0", "call 0 3", "end 0", "end 1"]),
    (12, "start 0 0, start 3 3, call 0 3, route 0 3, move 3 4", &["call 0 3", "end 0"]),
    (12, "start 0 0, start 1 1, start 2 2, call 0 1, route 0 1, call 0 2", &["call 0 1", "end 0"]),
    (13, "start 0 0, start 1 1, start 2 2, call 0 1", &["call 0 1", "call 0 2", "move 0 3",
        "move 0 0", "end 0"]),
    (14, CROWD, &["route 0 1", "route 1 0", "route 2 0", "route 3 0", "route 0 2"]),
    (14, "start 0 0, start 1 1, start 2 2, call 0 1", &["route 0 2", "route 1 0"]),
    (15, CROWD, &["send 1 3 1", "send 0 2 1", "part 1 3", "part 1 2"]),
    (16, CROWD, &["part 0 3"]),
    (17, CROWD, &["heed 0 1", "heed 1 0", "heed 0 2", "heed 1 3", "heed 3 0", "heed 3 1"]),
    (19, CROWD, &["land 3"]),
    (19, "start 0 0, start 1 1, call 0 1, route 0 1, move 1 2, heed 0 1", &["land 1"]),
    (20, CROWD, &["drain 3 1", "drain 3 2"]),
    (21, CROWD, &["drain 3 0"]),
    (22, CROWD, &["take 0 1", "take 0 3", "take 1 2", "look 0", "look 1"]),
    (22, "start 0 0, start 1 1, call 0 1, route 0 1, send 0 1 7", &["take 0 1", "look 0"]),
    (23, "start 0 0, start 1 1, call 0 1, route 0 1, send 0 1 7, part 1 0", &["end 1"]),
];
