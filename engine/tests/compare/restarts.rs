//! Logs in which most moves go to the rank's present host and many overlap,
//! paper 02, Change 2: "Overlapping moves to one host are covered by the
//! ordering claim too." Pseudo-random ones, as they are, spoiled, and followed
//! by all that their desk refuses; and ranks of one host that all restart at
//! once.

use crate::log::{log_of, Feed, Log};
use crate::probes::append_refused;
use crate::random::with_spoiled;
use engine::bits::Bits;
use engine::proposals::{random_log, Mix};
use engine::Rank;

const COUNT: usize = 200;
const LONG: usize = 48;
const PROBED: usize = 12;

const MIXES: [(&str, Mix); 4] = [
    ("two-hosts", Mix::RESTARTS),
    ("one-host", ONE_HOST),
    ("strays", STRAYS),
    ("laden", LADEN),
];

/// Every move is a restart on host 0, but for those of strays and back.
const ONE_HOST: Mix = Mix {
    hosts: 1,
    ..Mix::RESTARTS
};

/// The same, with many steps that come at the wrong time.
const STRAYS: Mix = Mix {
    stray_one_in: 3,
    ..ONE_HOST
};

/// Lists and lanes are full of messages.
const LADEN: Mix = Mix {
    weights: &[8, 40, 50, 300, 30, 24, 12, 120, 16, 16, 0, 4],
    ..Mix::RESTARTS
};

fn random(what: &str, index: usize, records: usize) -> Log {
    let (mix_name, mix) = MIXES[index % MIXES.len()];
    let name = format!("restarts-{what}-{index}-{mix_name}");
    let seed = (7_000 + index + records) as u64;
    let bytes = random_log(seed, mix, records);
    Log::new(name, bytes, Feed::in_turn(index))
}

fn probed(index: usize) -> Log {
    let mut log = random("probed", index, 100 + 50 * index);
    append_refused(&mut log.bytes);
    log
}

/// The ordered pairs of so many ranks.
fn pairs(ranks: u8) -> impl Iterator<Item = (u8, u8)> {
    let all = (0..ranks).flat_map(move |a| (0..ranks).map(move |b| (a, b)));
    all.filter(|(a, b)| a != b)
}

/// All are joined and have messages on all lanes when one after the other
/// restarts on host 5: the lines of the later ones to the earlier are notices,
/// over which the last sends once more. Then all are drained and land.
fn round(ranks: u8, turn: u32) -> Vec<u8> {
    let last = ranks - 1;
    let joins = pairs(ranks).map(|(a, b)| format!("call {a} {b}, route {a} {b}, route {a} {b}"));
    let sends = pairs(ranks).map(|(a, b)| format!("send {a} {b} {turn}{a:02}{b:02}"));
    let moves = (0..ranks).map(|r| format!("move {r} 5, send {last} {r} {turn}"));
    let drains =
        pairs(ranks).map(|(r, s)| format!("drain {r} {s}, drain {r} {s}, drain {r} {s}, land {r}"));
    let steps = joins.chain(sends).chain(moves).chain(drains);
    steps.flat_map(|steps| log_of(&steps)).collect()
}

/// Two rounds, with nothing taken before the end, so that messages are carried
/// over two restarts.
fn all_at_once(ranks: u8) -> Log {
    let starts = (0..ranks).map(|rank| format!("start {rank} 5"));
    let takes = pairs(ranks).map(|(a, b)| format!("take {a} {b}"));
    let takes: Vec<u8> = takes.flat_map(|take| log_of(&take).repeat(5)).collect();
    let bytes = [
        starts.flat_map(|start| log_of(&start)).collect(),
        round(ranks, 1),
        round(ranks, 2),
        takes,
    ];
    let name = format!("restarts-at-once-{ranks}");
    Log::new(name, bytes.concat(), Feed::Pipe)
}

/// The logs that are compared just as they are.
fn long_logs() -> impl Iterator<Item = Log> {
    let long = (0..LONG).map(|index| random("long", index, 4_000));
    long.chain((0..PROBED).map(probed))
}

/// The logs that are spoiled besides.
fn short_logs() -> impl Iterator<Item = Log> {
    let short = (0..COUNT).map(|index| random("short", index, 20 + 4 * index));
    short.chain((2..=Rank::COUNT as u8).map(all_at_once))
}

pub fn logs() -> Vec<Log> {
    let mut bits = Bits::new(4);
    let spoiled = short_logs().flat_map(|log| with_spoiled(log, &mut bits));
    long_logs().chain(spoiled).collect()
}

mod tests {
    use super::{all_at_once, long_logs, short_logs};
    use crate::log::Log;
    use crate::situations::Restarts;
    use crate::tally::Tally;
    use engine::Kind;

    /// So often, at least, each situation of a restart comes up, in the order
    /// of their rows.
    const LEAST: [u64; Restarts::ROWS] = [10_000, 5_000, 5_000, 1_000, 1_000, 1_000];

    /// Without the spoiled logs, which repeat what is before the change.
    #[test]
    fn restarts_are_many_and_overlap() {
        let whole: Vec<Log> = long_logs().chain(short_logs()).collect();
        let rows = Tally::of(&whole).situations.restarts.rows();
        for ((situation, count), least) in rows.into_iter().zip(LEAST) {
            assert!(count >= least, "{situation}: {count}");
        }
    }

    #[test]
    fn all_of_a_host_restart_twice_and_take_what_was_sent() {
        for ranks in 2..=16 {
            let tally = Tally::of(&[all_at_once(ranks)]);
            let ranks = u64::from(ranks);
            assert_eq!(tally.accepted(Kind::Move), 2 * ranks);
            assert_eq!(tally.accepted(Kind::Land), 2 * ranks);
            assert_eq!(tally.accepted(Kind::Send), 2 * (ranks + 1) * (ranks - 1));
            assert_eq!(tally.accepted(Kind::Take), tally.accepted(Kind::Send));
        }
    }
}
