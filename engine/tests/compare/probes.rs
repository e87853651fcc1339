//! Pseudo-random logs followed by every step that their desk then refuses. As
//! "a refusal leaves the state lent for a step unchanged", all are tried in
//! the same state, and the printed pairs show that it was left alone.

use crate::log::{append_random, desk_after, Feed, Log};
use crate::random::MIXES;
use engine::proposals::step_of;
use engine::{Kind, Rank, Step};

/// All steps with ranks and hosts up to one past the last.
pub fn all_steps() -> impl Iterator<Item = Step> {
    let past = Rank::COUNT as u8;
    Kind::ALL.into_iter().flat_map(move |kind| {
        let last = if kind.body().len() == 1 { 0 } else { past };
        (0..=past)
            .flat_map(move |first| (0..=last).map(move |second| step_of(kind, [first, second], 9)))
    })
}

/// Tries on a log's desk all steps that it refuses.
pub fn append_refused(log: &mut Vec<u8>) {
    let desk = desk_after(log);
    for step in all_steps().filter(|&step| desk.check(step).is_err()) {
        step.write(log);
    }
}

pub fn logs() -> Vec<Log> {
    (0..5 * MIXES.len())
        .map(|index| {
            let (mix_name, mix) = MIXES[index % MIXES.len()];
            let mut bytes = Vec::new();
            append_random(&mut bytes, 9_000 + index as u64, mix, 100 + 50 * index);
            append_refused(&mut bytes);
            append_random(&mut bytes, 9_500 + index as u64, mix, 50);
            Log::new(format!("probes-{index}-{mix_name}"), bytes, Feed::Pipe)
        })
        .collect()
}
