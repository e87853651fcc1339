//! "The lowest number that applies is given" (paper 01): for each kind every
//! two of its checks that can apply to one record do so here, and the lower is
//! given. A few desks are brought about in which every check applies to some
//! record, and then all is tried that they refuse, and some of it cut short. No
//! log sends 4,294,967,295 messages: for 28 the states are handed in here to this
//! engine, and to the proved step by the program `test_spent`.

mod apart;

use crate::limits::all_numbers_of_host_0;
use crate::log::{desk_after, log_of, record_starts, sends, Feed, Log};
use crate::plain_table::applying;
use crate::probes::{all_steps, append_refused};
use apart::TwoChecks;
use engine::refusal::number_of;
use engine::{step, Desk, Kind, Mail, Refusal, RunningNumber, Snapshot, Step};
use std::collections::BTreeMap;

/// From rank 0 running: 0 has a plain line to 1, a notice line to 3, a call open
/// to 5, and a message unread. 2 is ended, 4 unstarted. 3 moves with an await of
/// 0; its arrival has a message unread and a notice line to 6, which moves too,
/// with an await of 3. 7 has a call open and a message unread, but no line; 8 a
/// message unread alone.
const CROWD: &str = "start 1 1, start 2 2, end 2, start 3 3, start 5 5, start 6 6, start 7 7, \
    call 0 1, route 0 1, send 1 0 70, call 0 3, route 0 3, send 0 3 71, move 3 4, \
    call 6 3, route 6 3, route 6 3, send 6 3 72, move 6 7, \
    call 1 7, route 1 7, send 1 7 73, part 1 7, call 7 5, call 0 5, \
    start 8 1, call 1 8, route 1 8, send 1 8 74, part 1 8";

/// Rank 0 runs, and then the crowd.
fn crowd() -> Vec<u8> {
    [log_of("start 0 0"), log_of(CROWD)].concat()
}

/// The crowd with a full desk.
fn full_crowd() -> Vec<u8> {
    let mut log = crowd();
    let room = Mail::LIMIT - desk_after(&log).mail().unread();
    log.extend(sends(0, 1, 0..room as u32));
    log
}

/// The crowd with all numbers drawn on a host.
fn crowd_without_numbers() -> Vec<u8> {
    [all_numbers_of_host_0(), log_of(CROWD)].concat()
}

/// For each kind and number that the full crowd gives, the last step that gets it,
/// which names the highest ranks.
fn refused_steps() -> BTreeMap<(Kind, Refusal), Step> {
    let desk = desk_after(&full_crowd());
    let mut last = BTreeMap::new();
    for step in all_steps() {
        if let Err(refusal) = desk.check(step) {
            last.insert((step.kind(), refusal), step);
        }
    }
    last
}

/// Logs that end in such a step, its last byte cut off: 3 comes before them all.
fn cut_short() -> impl Iterator<Item = Log> {
    let full_crowd = full_crowd();
    refused_steps()
        .into_iter()
        .map(move |((kind, refusal), step)| {
            let mut bytes = full_crowd.clone();
            step.write(&mut bytes);
            bytes.pop();
            let (word, number) = (kind.word(), refusal.number());
            Log::new(format!("cut-short-{word}-{number}"), bytes, Feed::Pipe)
        })
}

pub fn logs() -> Vec<Log> {
    let crowds = [
        ("crowd", crowd()),
        ("full-crowd", full_crowd()),
        ("crowd-without-numbers", crowd_without_numbers()),
    ];
    let refused = crowds.map(|(name, mut bytes)| {
        append_refused(&mut bytes);
        Log::new(format!("two-checks-{name}"), bytes, Feed::File)
    });
    refused.into_iter().chain(cut_short()).collect()
}

/// The states of crowds in which every pair has sent all that it can.
fn handed_in() -> [Snapshot; 2] {
    [crowd(), full_crowd()].map(|log| {
        let mut state = desk_after(&log).snapshot();
        state.sent = [[RunningNumber::MAX; 16]; 16];
        state
    })
}

/// For every two checks of a kind that apply to one record, how often the lower
/// is the number that is given.
type Counts = BTreeMap<TwoChecks, u64>;

/// Counts a record that gets a number in a state: the lowest that applies.
fn count(counts: &mut Counts, state: &Snapshot, record: &[u8], number: u8) {
    let word = Kind::from_byte(record[0]).unwrap().word();
    let applying = applying(state, record);
    assert_eq!(applying.first(), Some(&number), "{word} {:?}", &record[1..]);
    for (index, &low) in applying.iter().enumerate() {
        for &high in &applying[index + 1..] {
            *counts.entry((word, low, high)).or_default() += u64::from(low == number);
        }
    }
}

/// Counts all refused records of some logs. As "a refusal leaves the state lent
/// for a step unchanged", the state afterwards is the one that it was tried in.
fn in_logs(logs: &[Log]) -> Counts {
    let mut counts = Counts::new();
    for log in logs {
        let mut desk = Desk::fresh();
        for start in record_starts(&log.bytes) {
            let outcome = desk.step_sound(&log.bytes, start as u64);
            if outcome.answer.is_err() {
                let record = &log.bytes[start..outcome.next as usize];
                count(
                    &mut counts,
                    &desk.snapshot(),
                    record,
                    number_of(&outcome.answer),
                );
            }
        }
    }
    counts
}

/// Counts all sends in the states that are handed in.
fn in_states() -> Counts {
    let mut counts = Counts::new();
    for state in handed_in() {
        for send in all_steps().filter(|step| step.kind() == Kind::Send) {
            let mut record = Vec::new();
            send.write(&mut record);
            let outcome = step(&mut state.clone(), &record, 0);
            count(&mut counts, &state, &record, number_of(&outcome.answer));
        }
    }
    counts
}

/// The counts in the logs, one a line.
pub fn report() -> String {
    let counts = in_logs(&logs()).into_iter();
    let lines = counts.map(|((word, low, high), count)| {
        format!("{word} refused with {low} where {high} applies too: {count}\n")
    });
    lines.collect()
}

mod tests {
    use super::apart::{apart, every_two};
    use super::{crowd, crowd_without_numbers, full_crowd, in_logs, in_states, logs};
    use super::{cut_short, refused_steps, Counts, TwoChecks};
    use crate::check_table::NAMED;
    use crate::log::record_starts;
    use engine::{run_slice, Desk, Refusal};
    use std::collections::BTreeSet;

    #[test]
    fn every_step_before_the_refused_ones_is_accepted() {
        for log in [crowd(), full_crowd(), crowd_without_numbers()] {
            let mut desk = Desk::fresh();
            for start in record_starts(&log) {
                let answer = desk.step_sound(&log, start as u64).answer;
                assert!(answer.is_ok(), "{answer:?} at {start}");
            }
        }
    }

    /// Every number that a log can get in a kind but 25, for which the host is the
    /// byte that is cut off.
    #[test]
    fn every_number_has_a_record_that_is_cut_short() {
        let refused = refused_steps().into_keys();
        let reached: BTreeSet<(u8, &str)> = refused
            .map(|(kind, refusal)| (refusal.number(), kind.word()))
            .collect();
        let named = NAMED.iter().filter(|(number, _)| *number < 25);
        let named = named.flat_map(|(number, words)| words.iter().map(|word| (*number, *word)));
        assert_eq!(reached, named.collect());
        for log in cut_short() {
            let printed = String::from_utf8(run_slice(&log.bytes)).unwrap();
            let steps = printed.lines().filter(|line| line.ends_with(" 3 0 0 0"));
            assert_eq!(steps.count(), 1, "{}", log.name);
        }
    }

    /// The lower of every two is given while the other applies, in a log or, with
    /// 28, in a state that is handed in, or the two are apart; one of these alone.
    #[test]
    fn every_two_checks_of_a_kind_meet_or_are_apart() {
        let spent = Refusal::SendsExhausted.number();
        let (in_logs, mut in_states) = (in_logs(&logs()), in_states());
        in_states.retain(|(_, _, high), _| *high == spent);
        let (every_two, apart) = (every_two(), apart());
        let is_given = |counts: &Counts, two| counts.get(two).is_some_and(|&count| count > 0);
        let ways = |two| {
            let met = [&in_logs, &in_states].map(|counts| is_given(counts, two));
            usize::from(met[0]) + usize::from(met[1]) + usize::from(apart.contains_key(two))
        };
        let wrong: Vec<&TwoChecks> = every_two.iter().filter(|two| ways(two) != 1).collect();
        assert!(
            wrong.is_empty(),
            "neither met nor apart, or both: {wrong:?}"
        );
        for (two, reason) in &apart {
            assert!(every_two.contains(two), "{two:?}: no kind has both");
            let together = in_logs.contains_key(two) || in_states.contains_key(two);
            assert!(!together, "{two:?} apply to one record, though {reason}");
        }
    }
}
