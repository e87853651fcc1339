//! A log whose records are all refused, after those that make a desk at which
//! every refusal from 4 to 23 can be given; 18 is none. 24 and 25 need a full
//! desk and a host without numbers, 28 a pair that has sent 4,294,967,295, 2 and
//! 3 end a run, and 1 is never given in one.

use crate::pass::Pass;
use engine::proposals::step_of;
use engine::{Host, Kind, Rank, Refusal, Step};
use std::ops::RangeInclusive;

const GIVEN: RangeInclusive<Refusal> = Refusal::RankOutOfRange..=Refusal::UnreadRemain;

/// So many names are tried: all ranks and hosts, and some that are none.
const NAMES: u8 = 20;

/// A desk in mid pass: ranks 0 to 11 are joined and 1 of them moves, 12 has
/// ended, 13 has a call open, 14 has unread messages and no line, and 15 is
/// not started.
fn established(seed: u64) -> Pass {
    let mut pass = Pass::joined(12, 200..=600, seed);
    for _ in 0..3_000 {
        pass.exchange();
    }
    for r in (12..15).map(Rank) {
        let h = Host(r.0 % 8);
        pass.record(Step::Start { r, h });
    }
    pass.record(Step::End { r: Rank(12) });
    let (a, b) = (Rank(0), Rank(14));
    pass.connect(a, b);
    pass.record(Step::Send { a, b, value: 14 });
    pass.record(Step::Part { a, b });
    let (a, b) = (Rank(13), Rank(0));
    pass.record(Step::Call { a, b });
    let (r, s) = (Rank(1), Rank(2));
    let h = pass.other_host(r);
    pass.record(Step::Move { r, h });
    while pass.desk.check(Step::Drain { r, s }).is_ok() {
        pass.record(Step::Drain { r, s });
    }
    pass.record(Step::Heed { b: Rank(0), r });
    pass
}

/// All steps but looks, with the names that are tried.
fn tried() -> impl Iterator<Item = Step> {
    let kinds = Kind::ALL.into_iter().filter(|&kind| kind != Kind::Look);
    kinds.flat_map(|kind| {
        (0..NAMES).flat_map(move |first| {
            (0..NAMES).map(move |second| step_of(kind, [first, second], 500))
        })
    })
}

/// The steps that the desk refuses with this refusal.
fn refused_with(pass: &Pass, refusal: Refusal) -> Vec<Step> {
    let refused = tried().filter(|&step| pass.desk.check(step) == Err(refusal));
    let steps: Vec<Step> = refused.collect();
    assert!(!steps.is_empty(), "nothing gets {}", refusal.number());
    steps
}

/// The log of a seed with so many refused records, all refusals alike often.
pub fn refused_log(records: usize, seed: u64) -> Vec<u8> {
    let mut pass = established(seed);
    let given = Refusal::ALL.into_iter().filter(|r| GIVEN.contains(r));
    let refused: Vec<Vec<Step>> = given.map(|r| refused_with(&pass, r)).collect();
    for _ in 0..records {
        let steps = &refused[pass.bits.below(refused.len() as u32) as usize];
        let chosen = pass.bits.below(steps.len() as u32) as usize;
        steps[chosen].write(&mut pass.log);
    }
    pass.log
}
