//! A log of a million records: told in some seconds, and in as little memory
//! as a short one.

use crate::peak_memory::peak_memory_kib;
use crate::program::{file_with, words};
use engine::proposals::{random_log, Mix};
use engine::run_slice;
use std::io::Read;
use std::process::{Child, Stdio};
use std::time::{Duration, Instant};

const RECORDS: usize = 1_000_000;

/// Far above what it takes, also where other tests run beside it.
const TIME_LIMIT: Duration = Duration::from_secs(60);

/// The run has a few tens of megabytes, and what is told of it more than a
/// hundred.
const MOST_MEMORY_KIB: u64 = 16 * 1_024;

/// The memory is asked for after each so many bytes.
const ASKED_APART: usize = 1 << 20;

/// All that a program prints, and the most memory that it had meanwhile.
fn printed_and_peak(child: &mut Child) -> (Vec<u8>, u64) {
    let mut output = child.stdout.take().unwrap();
    let (mut printed, mut peak) = (Vec::new(), 0);
    let mut piece = vec![0; 65_536];
    let mut asked_at = 0;
    while let count @ 1.. = output.read(&mut piece).unwrap() {
        printed.extend_from_slice(&piece[..count]);
        if printed.len() >= asked_at {
            peak = peak_memory_kib(child).map_or(peak, |now| now.max(peak));
            asked_at = printed.len() + ASKED_APART;
        }
    }
    (printed, peak)
}

#[test]
fn a_million_records_are_told_in_little_time_and_memory() {
    let log = random_log(41, Mix::BROAD, RECORDS);
    let Some(mut command) = words(file_with("million.log", &log)) else {
        return;
    };
    let begun = Instant::now();
    let mut child = command.stdout(Stdio::piped()).spawn().unwrap();
    let (printed, peak) = printed_and_peak(&mut child);
    assert!(child.wait().unwrap().success());
    let taken = begun.elapsed();
    assert!(taken < TIME_LIMIT, "{taken:?}");
    assert!((1..MOST_MEMORY_KIB).contains(&peak), "{peak} KiB");
    let told = printed.split(|&byte| byte == b'\n');
    let run = told.filter(|line| !line.starts_with(b" "));
    let expected = run_slice(&log);
    let expected = expected.split(|&byte| byte == b'\n');
    assert!(run.eq(expected));
}
