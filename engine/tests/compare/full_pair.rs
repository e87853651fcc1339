//! Logs in which one pair has all 1,024 messages that a desk can have unread:
//! "The unread count of a pair never passes 1,024" (paper 02, Change 3). They
//! are sent, taken, moved, drained, landed and parted, and stand at every
//! place. Each log is compared as it is and spoiled, and cut where the pair's
//! line shows them, then followed by all that the desk refuses.

mod scenarios;

use crate::log::{append_random, Feed, Log};
use crate::probes::append_refused;
use crate::random::with_spoiled;
use crate::script::{Script, Stop, PAIRS};
use engine::bits::Bits;
use engine::proposals::Mix;
use scenarios::SCENARIOS;

/// The scenarios of a pair, each with the name of its log.
fn scripts(sender: u8, receiver: u8) -> impl Iterator<Item = (String, Script)> {
    SCENARIOS.into_iter().map(move |(name, scenario)| {
        let mut script = Script::of(sender, receiver);
        scenario(&mut script);
        (format!("full-pair-{sender}-{receiver}-{name}"), script)
    })
}

/// A log, all that its desk then refuses, and random steps.
fn probed(log: &Log, seed: u64) -> Log {
    let mut bytes = log.bytes.clone();
    append_refused(&mut bytes);
    append_random(&mut bytes, seed, Mix::BROAD, 200);
    Log::new(format!("{}-probed", log.name), bytes, log.feed)
}

pub fn logs() -> Vec<Log> {
    let mut bits = Bits::new(5);
    let mut logs = Vec::new();
    for (sender, receiver) in PAIRS {
        for (name, script) in scripts(sender, receiver) {
            for Stop { length, .. } in &script.stops {
                let name = format!("{name}-to-{length}");
                let beginning = script.log[..*length].to_vec();
                let cut = Log::new(name, beginning, Feed::in_turn(logs.len()));
                logs.push(probed(&cut, logs.len() as u64));
                logs.push(cut);
            }
            let whole = Log::new(name, script.log, Feed::in_turn(logs.len()));
            logs.extend(with_spoiled(whole, &mut bits));
        }
    }
    logs
}

mod tests {
    use super::scenarios::FULL;
    use super::{scripts, Script, PAIRS};
    use crate::log::{Feed, Log};
    use crate::tally::Tally;
    use engine::run_slice;

    fn all_scripts() -> impl Iterator<Item = (String, Script)> {
        let pairs = PAIRS.into_iter();
        pairs.flat_map(|(sender, receiver)| scripts(sender, receiver))
    }

    fn printed(log: &[u8]) -> String {
        String::from_utf8(run_slice(log)).unwrap()
    }

    #[test]
    fn every_step_answers_as_written_and_all_is_taken() {
        for (name, script) in all_scripts() {
            script.check(&name);
        }
    }

    #[test]
    fn every_stop_shows_the_pair_alone() {
        for (name, script) in all_scripts() {
            let (sender, receiver) = (script.sender, script.receiver);
            for stop in script.stops {
                let page = printed(&script.log[..stop.length]);
                let is_step = |line: &&str| !line.starts_with("pair ");
                let behind: Vec<&str> = page.lines().skip_while(is_step).collect();
                let [first, second, third, fourth] = stop.counts;
                let pair = format!("pair {sender} {receiver} {first} {second} {third} {fourth}");
                assert_eq!(behind, [&pair, "end"], "{name}");
            }
        }
    }

    #[test]
    fn all_of_a_full_pair_are_shown_at_every_place() {
        for (sender, receiver) in PAIRS {
            let stops = scripts(sender, receiver).flat_map(|(_, script)| script.stops);
            let shown: Vec<[u32; 4]> = stops.map(|stop| stop.counts).collect();
            let at_one_place = |place| std::array::from_fn(|p| if p == place { FULL } else { 0 });
            for counts in (0..4).map(at_one_place).chain([[FULL / 4; 4]]) {
                assert!(shown.contains(&counts), "{sender} {receiver}: {counts:?}");
            }
        }
    }

    #[test]
    fn every_situation_of_a_full_pair_comes_up() {
        for (sender, receiver) in PAIRS {
            let logs = scripts(sender, receiver);
            let logs = logs.map(|(name, script)| Log::new(name, script.log, Feed::Pipe));
            let tally = Tally::of(&logs.collect::<Vec<Log>>());
            for (situation, count) in tally.situations.full_pairs.rows() {
                assert!(count > 0, "{sender} {receiver}: no {situation}");
            }
        }
    }
}
