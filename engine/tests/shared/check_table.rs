//! Paper 01's table, "Where each step is checked", as the tests read it: from 4
//! on, without the row of 18, which paper 02, Change 2, has "given no more", and
//! with 28, which Change 4 has "tested after 25".

/// The numbers in the order of their checks, each with the kinds that the table
/// names for it.
#[rustfmt::skip]
pub const NAMED: [(u8, &[&str]); 22] = [
    (4, &["start", "call", "route", "send", "take", "move", "heed", "drain", "land", "part", "end",
        "look"]),
    (5, &["start", "move"]),
    (6, &["call", "route", "send", "take", "heed", "drain", "part"]),
    (7, &["call", "route", "send", "take", "move", "heed", "drain", "land", "part", "end", "look"]),
    (8, &["start"]),
    (9, &["call", "send", "take", "move", "heed", "drain", "land", "part", "end", "look"]),
    (10, &["call", "send", "take", "move", "part", "end", "look"]),
    (11, &["drain", "land"]),
    (12, &["call", "end"]),
    (13, &["call", "move", "end"]),
    (14, &["route"]),
    (15, &["send", "part"]),
    (16, &["part"]),
    (17, &["heed"]),
    (19, &["land"]),
    (20, &["drain"]),
    (21, &["drain"]),
    (22, &["take", "look"]),
    (23, &["end"]),
    (24, &["send"]),
    (25, &["start", "move"]),
    (28, &["send"]),
];
