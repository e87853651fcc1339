//! Long logs of the shortest records: land, end and look have two bytes, so
//! that the most records stand in what is read at a time ("read through at
//! most 65,536 bytes"). They come from a file, through a pipe at once, and
//! through a pipe a few bytes at a time.

use crate::log::{log_of, Feed, Log};
use engine::bits::Bits;
use engine::Kind;

const KINDS: [Kind; 3] = [Kind::Land, Kind::End, Kind::Look];

/// How many records of two bytes stand in the log with all three kinds, and in
/// those with one: more than what is read at a time can hold, and uneven, so
/// that a run that stops too early has no round number to stop at.
const MIXED: usize = 70_001;
const OF_ONE_KIND: [usize; 3] = [63_000, 77_777, 98_303];

/// Ranks up to here are named: all sixteen, and two that are none.
const HIGHEST_RANK: u32 = 17;

/// Ranks 0 and 1 are joined and 1 has a message to look at; 2 to 7 run.
const ESTABLISHED: &str = "start 0 0, start 1 1, call 0 1, route 0 1, send 0 1 7, start 2 2, \
    start 3 3, start 4 4, start 5 5, start 6 6, start 7 7";

/// So many records stand between two moves, each of which one landing follows.
const BETWEEN_MOVES: usize = 50;

fn any_rank(bits: &mut Bits) -> u8 {
    bits.below(HIGHEST_RANK + 1) as u8
}

/// So many records of one kind at a fresh desk, which refuses them all.
fn of_one_kind(kind: Kind, records: usize) -> Vec<u8> {
    let mut bits = Bits::new(kind as u64);
    let records = (0..records).flat_map(|_| [kind as u8, any_rank(&mut bits)]);
    records.collect()
}

/// Lands and looks with moves between them, some of each accepted; in the
/// second half ends too, after which no rank moves any more.
fn mixed() -> Vec<u8> {
    let mut bits = Bits::new(20);
    let mut log = log_of(ESTABLISHED);
    for index in 0..MIXED {
        if index % BETWEEN_MOVES == 0 {
            let (rank, host) = (2 + bits.below(6), bits.below(8));
            log.extend(log_of(&format!("move {rank} {host}")));
        }
        let kinds = match index < MIXED / 2 {
            true => &[Kind::Land, Kind::Look][..],
            false => &KINDS,
        };
        let kind = kinds[bits.below(kinds.len() as u32) as usize];
        log.extend([kind as u8, any_rank(&mut bits)]);
    }
    log
}

pub fn logs() -> Vec<Log> {
    let mut all = vec![("mixed", mixed())];
    for (kind, records) in KINDS.into_iter().zip(OF_ONE_KIND) {
        all.push((kind.word(), of_one_kind(kind, records)));
    }
    let each = all.into_iter().flat_map(|(word, bytes)| {
        [Feed::Uneven, Feed::File, Feed::Pipe]
            .map(|feed| Log::new(format!("short-{word}-{feed:?}"), bytes.clone(), feed))
    });
    each.collect()
}

mod tests {
    use super::{mixed, of_one_kind, KINDS, MIXED, OF_ONE_KIND};
    use engine::{Desk, Kind, Step};

    /// How many records of two bytes a log has, and how many of each of their
    /// kinds are accepted.
    fn counts(log: &[u8]) -> (usize, [usize; 3]) {
        let mut desk = Desk::fresh();
        let (mut position, mut short, mut accepted) = (0, 0, [0; 3]);
        while let Ok((step, length)) = Step::read(&log[position..]) {
            let outcome = desk.step_sound(log, position as u64);
            if let Some(index) = KINDS.iter().position(|&short| short == step.kind()) {
                short += 1;
                accepted[index] += usize::from(outcome.answer.is_ok());
            }
            position += length;
        }
        assert_eq!(position, log.len());
        (short, accepted)
    }

    #[test]
    fn some_of_the_mixed_records_are_accepted_and_most_refused() {
        let (short, [landed, ended, looked]) = counts(&mixed());
        assert_eq!(short, MIXED);
        assert!(landed > 300 && ended >= 6 && looked > 1_000);
        assert!(landed + ended + looked < MIXED / 5);
    }

    #[test]
    fn all_of_one_kind_are_refused() {
        for (kind, records) in KINDS.into_iter().zip(OF_ONE_KIND) {
            assert_eq!(counts(&of_one_kind(kind, records)), (records, [0; 3]));
        }
    }

    #[test]
    fn no_record_is_shorter() {
        let shortest = Kind::ALL.map(Kind::record_length).into_iter().min();
        assert_eq!(KINDS.map(Kind::record_length), [shortest.unwrap(); 3]);
    }
}
