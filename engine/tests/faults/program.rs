//! The program itself. It has no exit status of its own: a read or a write that
//! fails is told on standard error, and it stops.

use crate::printed_run::LISTING;
use crate::proved_program::{program_at, USUAL_PLACE};
use crate::records::{file_with, full_disk, listing_log, long_log, records, scratch};
use crate::running::{End, Running};
use engine::run_slice;
use std::env;
use std::fs::{self, File};
use std::io::Write;
use std::os::fd::OwnedFd;
use std::os::unix::net::UnixStream;
use std::os::unix::process::ExitStatusExt;
use std::path::PathBuf;
use std::process::{Command, Stdio};

pub const UNREADABLE: &str = "replay: standard input cannot be read\n";
pub const UNWRITABLE: &str = "replay: standard output cannot be written\n";

/// The program that `REPLAY` names, else the one at its usual place.
fn replay() -> Option<PathBuf> {
    program_at(env::var_os("REPLAY").unwrap_or_else(|| USUAL_PLACE.into()))
}

/// The program behind a line of shell that calls it `$0`.
fn replay_in(shell: &str) -> Option<Command> {
    let mut command = Command::new("bash");
    command.args(["-c", shell]).arg(replay()?);
    Some(command)
}

fn command() -> Option<Command> {
    replay().map(Command::new)
}

/// It stopped by itself, and said this and nothing else.
fn assert_told(end: &End, said: &str) {
    assert_eq!(end.said, said);
    assert_eq!(end.status.signal(), None);
}

/// A full disk is told, whether the run is short or long.
#[test]
fn a_full_disk_is_told() {
    for (name, log) in [("short", listing_log()), ("long", long_log())] {
        let Some(mut command) = command() else { return };
        let log = file_with(&format!("full-{name}.log"), &log);
        command.stdin(File::open(log).unwrap()).stdout(full_disk());
        assert_told(&Running::start(&mut command).end(), UNWRITABLE);
    }
}

/// It stops there, though more input could come.
#[test]
fn a_full_disk_is_told_while_the_input_is_open() {
    let Some(mut command) = command() else { return };
    command.stdin(Stdio::piped()).stdout(full_disk());
    let mut running = Running::start(&mut command);
    running.write(&listing_log());
    assert_told(&running.end(), UNWRITABLE);
}

/// What had room is there, and not a byte of it is missing or twice there.
#[test]
fn a_disk_that_gets_full_is_told() {
    const ROOM: usize = 100 * 1_024;
    let Some(mut command) = replay_in("trap '' XFSZ; ulimit -f 100; exec \"$0\"") else {
        return;
    };
    let log = long_log();
    let output = scratch("gets-full.run");
    command.stdin(File::open(file_with("gets-full.log", &log)).unwrap());
    command.stdout(File::create(&output).unwrap());
    assert_told(&Running::start(&mut command).end(), UNWRITABLE);
    let expected = run_slice(&log);
    assert!(fs::read(&output).unwrap() == expected[..ROOM]);
}

#[test]
fn a_closed_output_is_told() {
    for log in [listing_log(), long_log()] {
        let Some(mut command) = replay_in("exec \"$0\" >&-") else {
            return;
        };
        command.stdin(File::open(file_with("closed.log", &log)).unwrap());
        assert_told(&Running::start(&mut command).end(), UNWRITABLE);
    }
}

/// A folder, a file that is open for writing alone, and nothing at all.
#[test]
fn an_input_that_cannot_be_read_is_told() {
    let folder = File::open(env!("CARGO_TARGET_TMPDIR")).unwrap();
    let write_only = File::create(scratch("write-only.log")).unwrap();
    for (shell, input) in [
        ("exec \"$0\"", Stdio::from(folder)),
        ("exec \"$0\"", Stdio::from(write_only)),
        ("exec \"$0\" <&-", Stdio::null()),
    ] {
        let Some(mut command) = replay_in(shell) else {
            return;
        };
        let end = Running::start(command.stdin(input).stdout(Stdio::piped())).end();
        assert_told(&end, UNREADABLE);
        assert_eq!(end.printed, "");
    }
}

/// The lines of what came before stand, and no `end`: it is not the log's end.
#[test]
fn a_read_that_fails_later_is_told_after_the_lines_so_far() {
    let Some(mut command) = command() else { return };
    let (mut ours, mut theirs) = UnixStream::pair().unwrap();
    theirs.write_all(b"x").unwrap();
    command.stdin(OwnedFd::from(theirs)).stdout(Stdio::piped());
    let mut running = Running::start(&mut command);
    drop(command);
    ours.write_all(&listing_log()).unwrap();
    let lines: String = LISTING.split_inclusive('\n').take(18).collect();
    assert_eq!(running.printed_to(18), lines);
    // As a byte is unread at this end, the next read at the other one fails.
    drop(ours);
    let end = running.end();
    assert_told(&end, UNREADABLE);
    assert_eq!(end.printed, lines);
}

/// It tells that nobody reads, and stops. The kit's programs ignore the signal
/// by which the system ends programs that write to nobody.
#[test]
fn a_reader_that_goes_away_ends_it() {
    let Some(mut command) = command() else { return };
    let log = long_log();
    let expected = String::from_utf8(run_slice(&log)).unwrap();
    let log = file_with("reader.log", &log);
    command
        .stdin(File::open(log).unwrap())
        .stdout(Stdio::piped());
    let mut running = Running::start(&mut command);
    let printed = running.printed_to(1);
    assert!(!printed.is_empty() && expected.starts_with(&printed));
    running.stop_reading();
    assert_told(&running.end(), UNWRITABLE);
}

/// Every line is there before the next record comes.
pub fn assert_lines_come_at_once(mut running: Running) -> End {
    let log = listing_log();
    let mut expected = String::new();
    let mut lines = LISTING.split_inclusive('\n');
    for (index, record) in records(&log).into_iter().enumerate() {
        running.write(record);
        expected += lines.next().unwrap();
        assert_eq!(running.printed_to(index + 1), expected);
    }
    running.close_input();
    running.end()
}

#[test]
fn lines_come_while_the_input_is_open() {
    let Some(mut command) = command() else { return };
    let end = assert_lines_come_at_once(Running::start_piped(&mut command));
    assert_told(&end, "");
    assert_eq!(end.printed, LISTING);
}

/// A record's line comes with its last byte.
#[test]
fn lines_come_while_bytes_come_one_by_one() {
    let Some(mut command) = command() else { return };
    let mut running = Running::start_piped(&mut command);
    let log = listing_log();
    for (index, record) in records(&log).into_iter().enumerate() {
        for byte in record {
            running.write(&[*byte]);
        }
        assert_eq!(running.printed_to(index + 1).lines().count(), index + 1);
    }
    running.close_input();
    let end = running.end();
    assert_told(&end, "");
    assert_eq!(end.printed, LISTING);
}

/// Nothing more is awaited after a byte that is no kind.
#[test]
fn an_unknown_kind_ends_the_run_while_the_input_is_open() {
    let Some(mut command) = command() else { return };
    let mut running = Running::start_piped(&mut command);
    let log = [&listing_log()[..], &[0x7F]].concat();
    running.write(&log);
    let expected = String::from_utf8(run_slice(&log)).unwrap();
    assert_eq!(running.printed_to(21), expected);
    let end = running.end();
    assert_told(&end, "");
    assert_eq!(end.printed, expected);
}

/// What stands before a record that is cut short is out before the input ends;
/// the 3, the pairs and `end` come then.
#[test]
fn an_input_that_stops_in_mid_record_ends_with_a_3() {
    let log = listing_log();
    for cut in [1, 2, 4, 7, 13, 18, 49, 62, 63] {
        let Some(mut command) = command() else { return };
        let mut running = Running::start_piped(&mut command);
        let expected = String::from_utf8(run_slice(&log[..cut])).unwrap();
        let lines: Vec<&str> = expected.split_inclusive('\n').collect();
        let is_3 = |line: &&str| line.ends_with(" 3 0 0 0\n");
        let whole = lines.iter().position(is_3).unwrap();
        running.write(&log[..cut]);
        assert_eq!(running.printed_to(whole), lines[..whole].concat());
        running.close_input();
        let end = running.end();
        assert_told(&end, "");
        assert_eq!(end.printed, expected);
    }
}
