//! Logs made for the running numbers of paper 02, Change 4: "A take gives it as
//! v3, and a drain that moves a message does too." The numbers of a pair go on
//! over parts, overlapping moves and restarts, and past 16 bits. Each log is
//! compared as it is and spoiled.

use crate::log::{Feed, Log};
use crate::random::with_spoiled;
use crate::script::{Script, PAIRS};
use engine::bits::Bits;

fn join(script: &mut Script) {
    script.steps("start S 0: 0 0 1 0, start R 1: 0 1 1 0, call S R: 0 1 1 0, route S R: 0 0 1 1");
}

/// Both ranks send, part, move at once, beside a third, and take between the
/// steps; then the receiver restarts. What is sent back has numbers of its own.
fn over_moves(script: &mut Script) {
    join(script);
    script.sends(3);
    script.takes(1);
    script.steps("send R S 90: 0 1 0 0, send R S 91: 0 2 0 0, take S R: 0 90 1 1");
    script.steps("part S R: 0 1 2 0, call S R: 0 1 1 0, route S R: 0 0 1 1");
    script.sends(2);
    script.stop([0, 0, 2, 2]);
    script.steps("move R 2: 0 2 1 1");
    script.sends(1);
    script.drains(3..4);
    script.steps("start T 4: 0 4 1 0, move T 5: 0 5 1 0, take S R: 0 91 0 2");
    script.steps("move S 3: 0 3 1 1, heed S R: 17 0 0 0");
    script.stop([3, 2, 0, 0]);
    script.drains(4..6);
    script.steps("drain R S: 0 1 0 0, drain R S: 20 0 0 0, land R: 0 5 0 0");
    script.takes(2);
    script.steps("drain S R: 0 1 0 0, land S: 0 0 0 0, land T: 0 0 0 0");
    script.steps("call S R: 0 1 1 0, route S R: 0 1 2 1, route S R: 0 0 2 1");
    script.sends(1);
    script.steps("send R S 92: 0 1 0 0, move R 2: 0 2 2 1, heed S R: 0 1 0 0");
    script.drains(6..7);
    script.stop([4, 0, 0, 0]);
    script.steps("drain R S: 0 1 0 0, land R: 0 4 0 0, take S R: 0 92 0 3");
    script.takes(4);
    script.steps("take R S: 22 0 0 0, take S R: 22 0 0 0");
}

/// One message after the other, until the numbers have more than 16 bits; these
/// are drained by a mover and taken.
fn past_sixteen_bits(script: &mut Script) {
    const BEFORE: u32 = 65_534;
    join(script);
    for _ in 0..BEFORE {
        script.sends(1);
        script.takes(1);
    }
    script.sends(4);
    script.steps("move R 2: 0 2 1 1, heed S R: 0 0 0 0");
    script.drains(BEFORE..BEFORE + 4);
    script.steps("drain R S: 0 1 0 0, land R: 0 4 0 0");
    script.takes(4);
}

/// All scripts, each with the name of its log.
fn scripts() -> Vec<(String, Script)> {
    let script = |scenario: fn(&mut Script), (sender, receiver), name: &str| {
        let mut script = Script::of(sender, receiver);
        scenario(&mut script);
        (format!("numbers-{sender}-{receiver}-{name}"), script)
    };
    let moves = PAIRS.map(|pair| script(over_moves, pair, "over-moves"));
    let mut scripts = Vec::from(moves);
    scripts.push(script(past_sixteen_bits, PAIRS[0], "past-sixteen-bits"));
    scripts
}

pub fn logs() -> Vec<Log> {
    let mut bits = Bits::new(6);
    let mut logs = Vec::new();
    for (name, script) in scripts() {
        for stop in &script.stops {
            let name = format!("{name}-to-{}", stop.length);
            let beginning = script.log[..stop.length].to_vec();
            logs.push(Log::new(name, beginning, Feed::in_turn(logs.len())));
        }
        let whole = Log::new(name, script.log, Feed::in_turn(logs.len()));
        logs.extend(with_spoiled(whole, &mut bits));
    }
    logs
}

mod tests {
    use super::{logs, scripts};
    use crate::tally::Tally;
    use crate::{random, restarts};

    #[test]
    fn every_step_answers_as_written_and_all_is_taken() {
        for (name, script) in scripts() {
            script.check(&name);
        }
    }

    /// In the logs made for it, and far more often in pseudo-random ones.
    #[test]
    fn numbers_are_given_in_every_situation() {
        for (logs, least) in [
            (logs(), 10),
            (random::logs(), 1_000),
            (restarts::logs(), 1_000),
        ] {
            for (situation, count) in Tally::of(&logs).situations.running_numbers.rows() {
                assert!(count >= least, "{situation}: {count}");
            }
        }
    }
}
