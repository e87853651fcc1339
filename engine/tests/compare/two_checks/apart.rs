//! Every two checks of a kind, and which of them never apply to one record in a
//! sound state, with the reason: mostly a sentence of paper 01, "Sound states".

use crate::check_table::NAMED;
use std::collections::{BTreeMap, BTreeSet};

/// A kind's word and the numbers of two of its checks, the lower first.
pub type TwoChecks = (&'static str, u8, u8);

/// A reason, and the two checks that it keeps apart in each of these kinds.
type Reason = (&'static str, &'static [(u8, u8, &'static [&'static str])]);

#[rustfmt::skip]
const APART: &[Reason] = &[
    ("a rank above 15 is unstarted", &[
        (4, 8, &["start"]),
        (4, 9, &["move", "land", "end", "look"]),
        (4, 10, &["move", "end", "look"]),
    ]),
    ("a rank above 15 has no line, call, await or message, and nobody has one with it", &[
        (4, 12, &["call", "end"]),
        (4, 13, &["move", "end"]),
        (4, 16, &["part"]),
        (4, 19, &["land"]),
        (4, 21, &["drain"]),
        (4, 23, &["end"]),
        (4, 28, &["send"]),
    ]),
    ("no number is drawn on a host above 7", &[
        (5, 25, &["start", "move"]),
    ]),
    ("nobody has a line or an await with itself", &[
        (6, 12, &["call"]),
        (6, 16, &["part"]),
        (6, 21, &["drain"]),
    ]),
    ("a rank has one standing", &[
        (7, 9, &["move", "land", "end", "look"]),
        (7, 10, &["move", "end", "look"]),
        (9, 10, &["call", "send", "take", "move", "part", "end", "look"]),
    ]),
    ("an unstarted rank has no line, call, await or unread message, and nobody has a line to it", &[
        (7, 12, &["call", "end"]),
        (7, 13, &["move", "end"]),
        (7, 16, &["part"]),
        (7, 19, &["land"]),
        (7, 23, &["end"]),
    ]),
    ("awaits belong to moving ranks, from started ranks", &[
        (7, 21, &["drain"]),
        (9, 19, &["land"]),
        (9, 21, &["drain"]),
        (11, 19, &["land"]),
        (11, 21, &["drain"]),
    ]),
    ("an ended rank has no line and no unread message", &[
        (9, 12, &["call", "end"]),
        (9, 16, &["part"]),
        (9, 23, &["end"]),
    ]),
    ("calls go from a running rank", &[
        (9, 13, &["call", "move", "end"]),
        (10, 13, &["call", "move", "end"]),
    ]),
    ("a line that is notice stands", &[
        (15, 16, &["part"]),
    ]),
    ("an await that is unheeded is not none", &[
        (20, 21, &["drain"]),
    ]),
];

/// Every two checks that the table of checks names one kind for.
pub fn every_two() -> BTreeSet<TwoChecks> {
    let mut found = BTreeSet::new();
    for (index, (low, words)) in NAMED.iter().enumerate() {
        for (high, others) in &NAMED[index + 1..] {
            let both = words.iter().filter(|word| others.contains(word));
            found.extend(both.map(|word| (*word, *low, *high)));
        }
    }
    found
}

/// Those that never apply to one record, each with its reason.
pub fn apart() -> BTreeMap<TwoChecks, &'static str> {
    let mut found = BTreeMap::new();
    for (reason, rows) in APART {
        for (low, high, words) in *rows {
            for word in *words {
                let earlier = found.insert((*word, *low, *high), *reason);
                assert_eq!(earlier, None, "{word} {low} {high}");
            }
        }
    }
    found
}
