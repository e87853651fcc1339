//! Logs made for the looks of paper 02, Change 6: "The printed rank is compared
//! exactly from here." Several senders have something unread at each place when
//! a rank looks, while ranks move, part, restart and end; and a rank that has a
//! full desk unread takes always from the rank that its look names. Each log is
//! compared as it is and spoiled.

use crate::log::{append_random, log_of, Feed, Log};
use crate::random::with_spoiled;
use crate::script::{Script, PAIRS};
use engine::bits::Bits;
use engine::proposals::{random_log, Mix};
use engine::{Mail, Rank};

const COUNT: usize = 120;
const LONG: usize = 12;

const MIXES: [(&str, Mix); 2] = [("broad", Mix::LOOKS), ("moves", MOVES)];

/// More messages and moves, and no ends.
const MOVES: Mix = Mix {
    weights: &[8, 30, 40, 60, 20, 8, 5, 30, 12, 6, 0, 90],
    ..Mix::LOOKS
};

fn random(what: &str, index: usize, records: usize) -> Log {
    let (mix_name, mix) = MIXES[index % MIXES.len()];
    let bytes = random_log((11_000 + index + records) as u64, mix, records);
    let name = format!("looks-{what}-{index}-{mix_name}");
    Log::new(name, bytes, Feed::in_turn(index))
}

/// S and T are joined with R.
fn join(script: &mut Script) {
    script.steps("start S 0: 0 0 1 0, start R 1: 0 1 1 0, start T 2: 0 2 1 0");
    script.steps("call S R: 0 1 1 0, route S R: 0 0 1 1, call T R: 0 1 1 0, route T R: 0 0 1 1");
}

/// T's message is sent first and stays on the lane while those of S are in the
/// list. Then all three move, and R looks wherever it runs.
fn over_moves(script: &mut Script) {
    join(script);
    script.steps("send T R 20: 0 1 0 0, send S R 10: 0 1 0 0, send S R 11: 0 2 0 0");
    script.steps("look R: 0 T 0 0, part S R: 0 0 2 0, look R: 0 T 0 0");
    script.steps("move S 3: 0 3 1 0, look R: 0 T 0 0, move T 4: 0 4 1 1, look R: 0 T 0 0");
    script.steps("heed R T: 0 1 0 0, look R: 0 T 0 0, drain T R: 0 1 0 0, move R 5: 0 5 1 0");
    script.steps("look R: 10 0 0 0, land R: 0 3 0 0, look R: 0 T 0 0, land T: 0 0 0 0");
    script.steps("take R T: 0 20 0 1, look R: 0 S 0 0, take R S: 0 10 1 1, look R: 0 S 0 0");
    script.steps("take R S: 0 11 0 2, look R: 22 0 0 0, land S: 0 0 0 0");
}

/// R restarts, and drains the younger messages of S before the one of T, whose
/// running number is higher.
fn over_a_restart(script: &mut Script) {
    join(script);
    script.steps("send T R 20: 0 1 0 0, take R T: 0 20 0 1, send T R 21: 0 1 0 0");
    script.steps("send S R 10: 0 1 0 0, look R: 0 T 0 0, move R 1: 0 1 2 2, send S R 11: 0 2 0 0");
    script.steps("heed S R: 0 0 0 0, drain R S: 0 0 10 1, drain R S: 0 0 11 2, drain R S: 0 1 0 0");
    script.steps("call S R: 0 1 1 0, route S R: 0 1 1 2, route S R: 0 0 1 2, send S R 12: 0 3 0 0");
    script.steps("heed T R: 0 0 0 0, drain R T: 0 0 21 2, drain R T: 0 1 0 0, land R: 0 3 0 0");
    script.steps("look R: 0 T 0 0, take R T: 0 21 0 2, look R: 0 S 0 0, take R S: 0 10 2 1");
    script.steps("take R S: 0 11 1 2, look R: 0 S 0 0, take R S: 0 12 0 3, look R: 22 0 0 0");
}

/// Both senders end before their messages are taken.
fn after_ends(script: &mut Script) {
    join(script);
    script.steps("send S R 10: 0 1 0 0, send T R 20: 0 1 0 0, part S R: 0 0 1 0, end S: 0 0 0 0");
    script.steps("look R: 0 S 0 0, part T R: 0 0 1 0, end T: 0 0 0 0, look R: 0 S 0 0");
    script.steps("take R S: 0 10 0 1, look R: 0 T 0 0, take R T: 0 20 0 1, look R: 22 0 0 0");
}

type Scenario = fn(&mut Script);

const SCENARIOS: [(&str, Scenario); 3] = [
    ("over-moves", over_moves),
    ("over-a-restart", over_a_restart),
    ("after-ends", after_ends),
];

/// All scripts, each with the name of its log.
fn scripts() -> impl Iterator<Item = (String, Script)> {
    PAIRS.into_iter().flat_map(|(sender, receiver)| {
        SCENARIOS.into_iter().map(move |(name, scenario)| {
            let mut script = Script::of(sender, receiver);
            scenario(&mut script);
            (format!("looks-{sender}-{receiver}-{name}"), script)
        })
    })
}

/// All others fill the desk with messages to a receiver, in any order; it takes
/// them in this order, with a look before each.
fn served(receiver: u8) -> Vec<u8> {
    let others = || (0..Rank::COUNT as u8).filter(|&rank| rank != receiver);
    let mut log = log_of(&format!("start {receiver} 0"));
    for rank in others() {
        let join = format!("start {rank} 1, call {rank} {receiver}, route {rank} {receiver}");
        log.extend(log_of(&join));
    }
    let mut bits = Bits::new(receiver.into());
    let senders: Vec<u8> = others().collect();
    let senders: Vec<u8> = (0..Mail::LIMIT)
        .map(|_| senders[bits.below(senders.len() as u32) as usize])
        .collect();
    for (value, sender) in senders.iter().enumerate() {
        log.extend(log_of(&format!("send {sender} {receiver} {value}")));
    }
    for sender in senders {
        log.extend(log_of(&format!(
            "look {receiver}, take {receiver} {sender}"
        )));
    }
    log
}

/// The log of a receiver that is served, and then random steps.
fn served_log(receiver: u8) -> Log {
    let mut bytes = served(receiver);
    append_random(&mut bytes, receiver.into(), MOVES, 400);
    Log::new(format!("looks-served-{receiver}"), bytes, Feed::Pipe)
}

/// The logs that are spoiled besides.
fn short_logs() -> impl Iterator<Item = Log> {
    let scripts = scripts().map(|(name, script)| Log::new(name, script.log, Feed::Pipe));
    scripts.chain((0..COUNT).map(|index| random("short", index, 20 + 4 * index)))
}

pub fn logs() -> Vec<Log> {
    let mut bits = Bits::new(7);
    let long = (0..LONG).map(|index| random("long", index, 4_000));
    let served = [0, 7, 15].map(served_log);
    let spoiled = short_logs().flat_map(|log| with_spoiled(log, &mut bits));
    long.chain(served).chain(spoiled).collect()
}

mod tests {
    use super::{logs, scripts, served, short_logs};
    use crate::log::Log;
    use crate::tally::Tally;
    use engine::run_slice;

    #[test]
    fn every_step_answers_as_written_and_all_is_taken() {
        for (name, script) in scripts() {
            script.check(&name);
        }
    }

    /// The values are taken ascending, as they were sent, and each look names the
    /// sender of the take behind it, whose third byte it is.
    #[test]
    fn a_full_desk_is_served_in_the_order_of_sending() {
        for receiver in [0, 7, 15] {
            let log = served(receiver);
            let page = String::from_utf8(run_slice(&log)).unwrap();
            assert!(page.ends_with("\nend\n") && !page.contains("\npair "));
            let mut taken = 0..1_024;
            for line in page.lines() {
                match line.split(' ').collect::<Vec<_>>()[..] {
                    [position, "0C", "0", sender, "0", "0"] => {
                        let take = position.parse::<usize>().unwrap() + 2;
                        assert_eq!(log[take + 2].to_string(), sender, "{line}");
                    }
                    [_, "05", "0", value, ..] => {
                        assert_eq!(taken.next().unwrap().to_string(), value, "{line}");
                    }
                    _ => {}
                }
            }
            assert!(taken.is_empty());
        }
    }

    /// In the logs made for it; the spoiled ones repeat what is before the
    /// change and are left out.
    #[test]
    fn looks_with_a_choice_are_many() {
        let whole: Vec<Log> = short_logs().collect();
        for (logs, least) in [(whole, 25), (logs(), 250)] {
            for (situation, count) in Tally::of(&logs).situations.looks.rows() {
                assert!(count >= least, "{situation}: {count}");
            }
        }
    }
}
