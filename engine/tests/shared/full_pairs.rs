//! How often a run came into the situations of paper 02, Change 3: all messages
//! that a desk can have unread are of one pair.

use engine::{Desk, Mail, PairCount, Rank, Step};

/// The counts, each of accepted steps.
#[derive(Clone, Debug, Default)]
pub struct FullPairs {
    filled: u64,
    taken_from: u64,
    parted_towards_first: u64,
    parted_towards_second: u64,
    heeded: u64,
    moved_from_list: u64,
    moved_from_lane: u64,
    drained_to_the_last: u64,
    landed: u64,
}

impl FullPairs {
    /// How many rows there are.
    pub const ROWS: usize = 9;

    /// Looks at a step that is accepted, before it is made.
    pub fn note(&mut self, desk: &Desk, step: Step) {
        let mail = desk.mail();
        match step {
            Step::Send { a, b, .. } => {
                self.filled += u64::from(is_full(mail.unread_between(a, b) + 1));
            }
            Step::Take { b, a } => {
                self.taken_from += u64::from(is_full(mail.unread_between(a, b)));
            }
            Step::Move { r, .. } => {
                self.moved_from_list += u64::from(any_full(mail, r, |[_, _, list, _]| list));
                self.moved_from_lane += u64::from(any_full(mail, r, |[.., lane]| lane));
            }
            Step::Heed { b, r } => {
                let [.., lane] = mail.counts(r, b);
                self.heeded += u64::from(is_full(lane));
            }
            Step::Drain { r, s } => {
                let [listed, lane, ..] = mail.counts(s, r);
                self.drained_to_the_last += u64::from(lane > 0 && is_full(listed + 1));
            }
            Step::Land { r } => {
                let landed = any_full(mail, r, |[listed, _, list, _]| listed + list);
                self.landed += u64::from(landed);
            }
            Step::Part { a, b } => {
                let ([.., towards_a], [.., towards_b]) = (mail.counts(b, a), mail.counts(a, b));
                self.parted_towards_first += u64::from(is_full(towards_a));
                self.parted_towards_second += u64::from(is_full(towards_b));
            }
            _ => {}
        }
    }

    /// All counts with what they are counts of.
    pub fn rows(&self) -> [(&'static str, u64); FullPairs::ROWS] {
        [
            ("sends that make a pair's count 1,024", self.filled),
            ("takes from a pair of 1,024", self.taken_from),
            (
                "parts that move 1,024 towards the first rank",
                self.parted_towards_first,
            ),
            (
                "parts that move 1,024 towards the second rank",
                self.parted_towards_second,
            ),
            ("heeds that move 1,024", self.heeded),
            (
                "moves with 1,024 of a pair in the list",
                self.moved_from_list,
            ),
            (
                "moves with 1,024 of a pair on the lane",
                self.moved_from_lane,
            ),
            (
                "drains that make 1,024 of a pair in the list",
                self.drained_to_the_last,
            ),
            ("landings with 1,024 of a pair in the list", self.landed),
        ]
    }
}

fn is_full(count: PairCount) -> bool {
    usize::from(count) == Mail::LIMIT
}

/// Whether this part of the counts of a pair is full, for any sender.
fn any_full(mail: &Mail, r: Rank, part: impl Fn([PairCount; 4]) -> PairCount) -> bool {
    let counts = mail.senders_to(r).into_iter().map(|s| mail.counts(s, r));
    counts.map(part).any(is_full)
}
