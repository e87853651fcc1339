//! Pseudo-random logs, most of whose steps are accepted, of several mixes and
//! lengths; and each of them spoiled: cut at every byte of its last record,
//! and with single bytes changed.

use crate::log::{record_starts, Feed, Log};
use engine::bits::Bits;
use engine::proposals::{random_log, Mix};

const COUNT: usize = 2_520;

/// The weights are those of start, call, route, send, take, move, heed, drain,
/// land, part, end and look.
pub const MIXES: [(&str, Mix); 7] = [
    ("broad", Mix::BROAD),
    ("traffic", Mix::TRAFFIC),
    ("moves", MOVES),
    ("strays-in-moves", STRAYS_IN_MOVES),
    ("ends", ENDS),
    ("strays", STRAYS),
    ("filling", FILLING),
];

/// Many ranks move at once, and lines stand between them.
const MOVES: Mix = Mix {
    weights: &[8, 30, 40, 40, 12, 10, 4, 24, 6, 2, 0, 6],
    stray_one_in: 30,
    most_ended: 0,
    ..Mix::BROAD
};

/// The same, with many steps that come at the wrong time.
const STRAYS_IN_MOVES: Mix = Mix {
    stray_one_in: 3,
    ..MOVES
};

/// Ranks read what they have, part and end.
const ENDS: Mix = Mix {
    weights: &[6, 20, 24, 10, 30, 3, 8, 16, 8, 12, 8, 4],
    stray_one_in: 20,
    most_ended: 14,
    ..Mix::BROAD
};

/// Any step with fields mostly in range.
const STRAYS: Mix = Mix {
    stray_one_in: 2,
    ..Mix::BROAD
};

/// The desk is filled as fast as it can be.
const FILLING: Mix = Mix {
    weights: &[8, 40, 50, 900, 1, 6, 4, 8, 4, 1, 0, 4],
    stray_one_in: 40,
    most_ended: 0,
    ..Mix::BROAD
};

/// Lengths from 1 record to some hundred; each mix gets all of them.
fn records(index: usize) -> usize {
    let turn = index / MIXES.len();
    match turn % 4 {
        0 => 1 + turn / 4 % 40,
        1 => 41 + turn / 4 % 80,
        2 => 121 + turn / 4,
        _ => 221 + 3 * (turn / 4),
    }
}

fn feed(index: usize) -> Feed {
    match index % 97 {
        0 => Feed::Pieces(4 + index % 5),
        odd if odd % 2 == 1 => Feed::File,
        _ => Feed::Pipe,
    }
}

/// Logs with every byte changed, one at a time.
fn every_byte_changed() -> Vec<Log> {
    let whole = random_log(1, MOVES, 60);
    (0..whole.len())
        .map(|index| {
            let mut bytes = whole.clone();
            bytes[index] ^= 1;
            Log::new(format!("changed-at-{index}"), bytes, Feed::Pipe)
        })
        .collect()
}

/// The log cut before and within its last record.
fn cut(log: &Log) -> impl Iterator<Item = Log> + '_ {
    let last_start = record_starts(&log.bytes).pop().unwrap();
    (last_start..log.bytes.len()).map(|length| Log {
        name: format!("{}-cut-{length}", log.name),
        bytes: log.bytes[..length].to_vec(),
        feed: log.feed,
    })
}

/// The log with a low bit of one byte, any bit of another, and all bits of a
/// third turned over.
fn changed(log: &Log, bits: &mut Bits) -> [Log; 3] {
    [1 << bits.below(4), 1 << bits.below(8), 0xFF].map(|mask: u8| {
        let index = bits.below(log.bytes.len() as u32) as usize;
        let mut bytes = log.bytes.clone();
        bytes[index] ^= mask;
        Log {
            name: format!("{}-changed-{index}", log.name),
            bytes,
            feed: log.feed,
        }
    })
}

/// The log, and all that it is spoiled to.
pub fn with_spoiled(log: Log, bits: &mut Bits) -> Vec<Log> {
    let mut logs: Vec<Log> = cut(&log).chain(changed(&log, bits)).collect();
    logs.push(log);
    logs
}

/// Logs that are long enough to fill a desk and empty it again.
fn long_logs() -> impl Iterator<Item = Log> {
    (0..4 * MIXES.len()).map(|index| {
        let (mix_name, mix) = MIXES[index % MIXES.len()];
        let name = format!("long-{index}-{mix_name}");
        let bytes = random_log(5_000 + index as u64, mix, 4_000);
        Log::new(name, bytes, feed(index))
    })
}

pub fn logs() -> Vec<Log> {
    let mut bits = Bits::new(1);
    let mut logs: Vec<Log> = long_logs().chain(every_byte_changed()).collect();
    for index in 0..COUNT {
        let (mix_name, mix) = MIXES[index % MIXES.len()];
        let bytes = random_log(1 + index as u64, mix, records(index));
        let log = Log::new(format!("random-{index}-{mix_name}"), bytes, feed(index));
        logs.extend(with_spoiled(log, &mut bits));
    }
    logs
}
