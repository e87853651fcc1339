//! Logs that end anywhere and logs of any bytes: paper 01, "The position passes
//! the record, except at 1, 2 and 3, where it stays", and where a run stops.

use crate::printed_run::{LISTING, STEPS};
use crate::text::{desk_after, log_of, record_length, TWO};
use engine::proposals::{random_log, Mix};
use engine::{run_slice, step, Desk, Outcome, Refusal};

/// The position that a line of a printed run starts with.
fn position_of(line: &str) -> Option<usize> {
    line.split(' ').next()?.parse().ok()
}

#[test]
fn every_prefix_of_the_listing_stops_where_it_is_cut() {
    let log = log_of(STEPS);
    let lines: Vec<&str> = LISTING.lines().collect();
    let mut starts: Vec<usize> = lines.iter().filter_map(|line| position_of(line)).collect();
    starts.push(log.len());
    for length in 0..=log.len() {
        let printed = String::from_utf8(run_slice(&log[..length])).unwrap();
        let mut printed = printed.lines();
        let whole = starts.iter().filter(|&&start| start <= length).count() - 1;
        for line in &lines[..whole] {
            assert_eq!(printed.next(), Some(*line), "prefix of {length} bytes");
        }
        if starts[whole] < length {
            let cut = format!("{} {:02X} 3 0 0 0", starts[whole], log[starts[whole]]);
            assert_eq!(printed.next(), Some(&*cut), "prefix of {length} bytes");
        }
        let rest: Vec<&str> = printed.collect();
        let (end, pairs) = rest.split_last().unwrap();
        assert_eq!(*end, "end");
        assert!(pairs.iter().all(|line| line.starts_with("pair 0 1 ")));
        assert_eq!(pairs.len(), usize::from(whole >= 5));
    }
}

#[test]
fn at_and_past_the_end_3_is_given_and_the_position_stays() {
    let log = log_of("start 2 2");
    let before = desk_after(TWO).snapshot();
    for position in [3, 4, 1_000, u64::from(u32::MAX), u64::MAX] {
        let mut state = before.clone();
        let refused = Outcome {
            answer: Err(Refusal::CutShort),
            next: position,
        };
        assert_eq!(step(&mut state, &log, position), refused);
        assert_eq!(state, before);
        assert_eq!(desk_after(TWO).step_sound(&log, position), refused);
    }
}

#[test]
fn a_step_reads_at_any_position() {
    // From its second byte on, this log is a start of rank 2 on host 5.
    let log = [0x02, 0x01, 0x02, 0x05];
    let outcome = step(&mut desk_after(TWO).snapshot(), &log, 1);
    assert_eq!(outcome.answer, Ok([5, 1, 0]));
    assert_eq!(outcome.next, 4);
}

#[test]
fn a_run_stops_after_a_2() {
    let mut log = log_of("start 0 0, start 16 0");
    log.extend([0x7F, 0x01, 0x01, 0x01]);
    let expected = "0 01 0 0 1 0\n3 01 4 0 0 0\n6 7F 2 0 0 0\nend\n";
    assert_eq!(run_slice(&log), expected.as_bytes());
    assert_eq!(run_slice(&[0xFE]), b"0 FE 2 0 0 0\nend\n");
    assert_eq!(run_slice(&[0x00, 0x01]), b"0 00 2 0 0 0\nend\n");
}

#[test]
fn a_refused_record_is_passed_and_the_run_goes_on() {
    let log = log_of("look 3, start 3 9, start 3 7, look 3");
    let expected = "0 0C 7 0 0 0\n2 01 5 0 0 0\n5 01 0 7 1 0\n8 0C 22 0 0 0\nend\n";
    assert_eq!(run_slice(&log), expected.as_bytes());
}

/// Random bytes at every position: whatever is answered, the next position is
/// the one that the answer and the kind's length ask for.
#[test]
fn garbage_moves_the_position_only_past_whole_records() {
    let mut bits: u32 = 0x2545_F491;
    let mut seen = [0_u32; 3];
    for round in 0..200 {
        let garbage: Vec<u8> = (0..400)
            .map(|_| {
                bits ^= bits << 13;
                bits ^= bits >> 17;
                bits ^= bits << 5;
                // Half of the rounds stay among the kinds and ranks.
                if round % 2 == 0 {
                    bits as u8
                } else {
                    bits as u8 & 15
                }
            })
            .collect();
        let mut desk = Desk::fresh();
        for position in 0..garbage.len() as u64 {
            let kind = garbage[position as usize];
            let outcome = desk.step_sound(&garbage, position);
            let left = garbage.len() - position as usize;
            let next = match record_length(kind) {
                None => {
                    assert_eq!(outcome.answer, Err(Refusal::UnknownKind));
                    seen[0] += 1;
                    position
                }
                Some(length) if length > left => {
                    assert_eq!(outcome.answer, Err(Refusal::CutShort));
                    seen[1] += 1;
                    position
                }
                Some(length) => {
                    assert!(!outcome.answer.is_err_and(Refusal::keeps_position));
                    seen[2] += 1;
                    position + length as u64
                }
            };
            assert_eq!(outcome.next, next);
        }
        assert!(engine::is_sound(&desk.snapshot()));
        assert!(run_slice(&garbage).ends_with(b"end\n"));
    }
    assert!(seen.iter().all(|&count| count > 100), "{seen:?}");
}

/// A log with single bytes changed is still run without fault.
#[test]
fn spoiled_logs_still_print_an_end() {
    let log = random_log(99, Mix::BROAD, 400);
    for index in 0..log.len() {
        let mut spoiled = log.clone();
        spoiled[index] ^= 1 << (index % 8);
        assert!(run_slice(&spoiled).ends_with(b"end\n"));
    }
}
