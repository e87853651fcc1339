//! Made-up passes, paper 02, Change 1: those of many seeds, each as it is, cut
//! anywhere and within a record, and with bytes changed; and a long one. A
//! fresh desk refuses most of their records.

use crate::log::{record_starts, Feed, Log};
use crate::made_up_log::made_up_log;
use engine::bits::Bits;

/// The seeds from 1 up to here, and so many spread over all numbers.
const LOW_SEEDS: u32 = 260;
const SPREAD_SEEDS: u32 = 260;

/// The seed of a sequence that is known outside, the greatest one, and one of
/// the few whose passes come to 23.
const NAMED_SEEDS: [u32; 3] = [2_463_534_242, u32::MAX, 554];

const RECORDS: usize = 2_000;
const LONG: usize = 1_000_000;

fn seeds() -> impl Iterator<Item = u32> {
    let spread = (1..=SPREAD_SEEDS).map(|turn| turn.wrapping_mul(0x9E37_79B9));
    (1..=LOW_SEEDS).chain(NAMED_SEEDS).chain(spread)
}

type Spoil = fn(&[u8], &mut Bits) -> Vec<u8>;

/// What each pass is compared as besides as it is.
const SPOILED: [(&str, Spoil); 4] = [
    ("cut", cut_anywhere),
    ("cut-within-a-record", cut_within_a_record),
    ("changed", changed_anywhere),
    ("bodies-changed", changed_bodies),
];

fn any_place(log: &[u8], bits: &mut Bits) -> usize {
    bits.below(log.len() as u32) as usize
}

fn cut_anywhere(log: &[u8], bits: &mut Bits) -> Vec<u8> {
    log[..any_place(log, bits)].to_vec()
}

fn cut_within_a_record(log: &[u8], bits: &mut Bits) -> Vec<u8> {
    let starts = record_starts(log);
    loop {
        let length = any_place(log, bits);
        if starts.binary_search(&length).is_err() {
            return log[..length].to_vec();
        }
    }
}

/// Up to eight bytes are changed.
fn changed_anywhere(log: &[u8], bits: &mut Bits) -> Vec<u8> {
    let mut changed = log.to_vec();
    for _ in 0..1 + bits.below(8) {
        changed[any_place(log, bits)] = bits.next_bits() as u8;
    }
    changed
}

/// A byte of one body in eight is changed, often to one that is no rank and no
/// host. Kinds stay, so that all records are run.
fn changed_bodies(log: &[u8], bits: &mut Bits) -> Vec<u8> {
    let mut changed = log.to_vec();
    for record in record_starts(log).windows(2) {
        if bits.below(8) == 0 {
            let body = record[0] + 1..record[1];
            let place = body.start + bits.below(body.len() as u32) as usize;
            changed[place] = bits.below(32) as u8;
        }
    }
    changed
}

pub fn logs() -> Vec<Log> {
    let mut bits = Bits::new(3);
    let mut logs = vec![Log::new("made-up-long", made_up_log(1, LONG), Feed::File)];
    for (index, seed) in seeds().enumerate() {
        let pass = made_up_log(seed, RECORDS);
        for (how, spoil) in SPOILED {
            let bytes = spoil(&pass, &mut bits);
            let name = format!("made-up-{seed}-{how}");
            logs.push(Log::new(name, bytes, Feed::in_turn(index)));
        }
        let name = format!("made-up-{seed}");
        logs.push(Log::new(name, pass, Feed::in_turn(index)));
    }
    logs
}

mod tests {
    use super::{logs, seeds};
    use crate::log::Log;
    use crate::tally::{numbers, Tally};
    use engine::Kind;
    use std::collections::BTreeSet;

    #[test]
    fn no_seed_comes_twice() {
        let all: BTreeSet<u32> = seeds().collect();
        assert_eq!(all.len(), seeds().count());
        assert!(all.len() >= 500 && !all.contains(&0));
    }

    /// The kinds that a pass has: "1 plus the draw modulo 12".
    const DRAWN: usize = 12;

    /// The numbers that no pass comes to: none fills the desk, or draws all
    /// numbers of a host.
    const TOO_FAR: [usize; 2] = [24, 25];

    #[test]
    fn every_kind_is_accepted_and_all_but_two_numbers_are_given() {
        let tally = Tally::of(&logs());
        for &kind in &Kind::ALL[..DRAWN] {
            assert!(tally.accepted(kind) > 0, "no {} is accepted", kind.word());
        }
        let missing: Vec<usize> = numbers().filter(|&n| tally.refused(n) == 0).collect();
        assert_eq!(missing, TOO_FAR);
    }

    #[test]
    fn passes_are_cut_within_records() {
        let logs = logs();
        let cut = logs
            .iter()
            .filter(|log| log.name.ends_with("-within-a-record"));
        let cut: Vec<Log> = cut.cloned().collect();
        assert_eq!(cut.len(), seeds().count());
        assert_eq!(Tally::of(&cut).refused(3), cut.len() as u64);
    }
}
