//! A part of a log of a million records, in little memory and time.

use crate::drawing::command;
use crate::xml;
use engine::proposals::{random_log, Mix};
use std::fs;
use std::io::{Read, Write};
use std::process::Stdio;
use std::time::{Duration, Instant};

const RECORDS: usize = 1_000_000;

/// The most memory, and the most time that it may take.
const MOST_KIB: u64 = 64 << 10;
const TIME_LIMIT: Duration = Duration::from_secs(60);

/// The most memory that a process has had.
fn peak_kib(process: u32) -> u64 {
    let status = fs::read_to_string(format!("/proc/{process}/status")).unwrap();
    let peak = status.lines().find_map(|line| line.strip_prefix("VmHWM:"));
    let peak = peak.unwrap().trim().trim_end_matches(" kB");
    peak.parse().unwrap()
}

/// The last steps are drawn. The input stays open behind them until the memory
/// is measured.
#[test]
fn the_last_steps_of_a_million() {
    let log = random_log(8, Mix::BROAD, RECORDS);
    let from = RECORDS - 99;
    let Some(mut command) = command(&["-", &from.to_string(), &(from + 119).to_string()]) else {
        return;
    };
    command.stdin(Stdio::piped()).stdout(Stdio::piped());
    let begun = Instant::now();
    let mut child = command.spawn().unwrap();
    let mut input = child.stdin.take().unwrap();
    input.write_all(&log).unwrap();
    let peak = peak_kib(child.id());
    drop(input);
    let mut picture = String::new();
    child
        .stdout
        .take()
        .unwrap()
        .read_to_string(&mut picture)
        .unwrap();
    assert!(child.wait().unwrap().success());
    assert!(begun.elapsed() < TIME_LIMIT, "{:?}", begun.elapsed());
    assert!(peak < MOST_KIB, "{peak} KiB");
    assert_eq!(xml::check(&picture), Ok(()));
    let title = format!("<title>steps {from} to {RECORDS} of a run</title>");
    assert!(picture.contains(&title));
}
