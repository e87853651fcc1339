//! Paper 01: "Input may be of any length, read through at most 65,536 bytes;
//! positions count from its start." Streams must print what the whole log
//! prints, wherever the edge cuts a record; a read error is no log's end.

use crate::program::{replay, replay_from};
use crate::text::{log_of, JOINED};
use engine::proposals::{random_log, Mix};
use engine::{run_slice, run_stream, RunError};
use std::fs::{self, File, OpenOptions};
use std::io::{self, ErrorKind, Read};
use std::path::PathBuf;

const EDGE: usize = 65_536;

/// Sends and takes from before the edge to after it, shifted by so many bytes
/// of looks and at most one take, then a long random rest.
fn log_across_the_edge(shift: usize) -> Vec<u8> {
    let mut log = log_of(JOINED);
    let takes = shift % 2;
    log.extend(log_of("take 0 1").repeat(takes));
    log.extend(log_of("look 0").repeat((shift - 3 * takes) / 2));
    for value in 0..10_000 {
        log.extend(log_of(&format!("send 0 1 {value}, take 1 0")));
    }
    log.extend(random_log(40 + shift as u64, Mix::TRAFFIC, 50_000));
    log
}

/// Where the record that holds the first byte past the edge starts, counted
/// back from the edge.
fn cut_at_the_edge(log: &[u8]) -> usize {
    let printed = String::from_utf8(run_slice(log)).unwrap();
    let positions = printed
        .lines()
        .filter_map(|line| line.split(' ').next()?.parse().ok());
    let last = positions.filter(|&position: &usize| position <= EDGE).max();
    EDGE - last.unwrap()
}

fn scratch_file(name: &str) -> PathBuf {
    PathBuf::from(env!("CARGO_TARGET_TMPDIR")).join(name)
}

#[test]
fn program_prints_long_logs_as_the_whole_log_is_printed() {
    let mut cuts = Vec::new();
    for shift in 2..12 {
        let log = log_across_the_edge(shift);
        assert!(log.len() > 300_000, "{} bytes", log.len());
        cuts.push(cut_at_the_edge(&log));
        let expected = run_slice(&log);
        assert!(
            replay(&log) == expected,
            "through a pipe, shifted by {shift}"
        );
        let path = scratch_file(&format!("across-{shift}.log"));
        fs::write(&path, &log).unwrap();
        let output = replay_from(File::open(&path).unwrap().into());
        assert!(output.status.success() && output.stderr.is_empty());
        assert!(output.stdout == expected, "from a file, shifted by {shift}");
    }
    cuts.sort_unstable();
    cuts.dedup();
    assert_eq!(cuts, [0, 1, 2, 3, 4, 5, 6]);
}

/// Gives its bytes in pieces of one length, with an interruption before each;
/// after the last, the end or an error.
struct Pieces<'a> {
    bytes: &'a [u8],
    length: usize,
    interrupt: bool,
    failure: Option<ErrorKind>,
}

impl Read for Pieces<'_> {
    fn read(&mut self, buffer: &mut [u8]) -> io::Result<usize> {
        assert!(buffer.len() <= EDGE, "more than 65,536 bytes are asked for");
        self.interrupt = !self.interrupt;
        if self.interrupt {
            return Err(ErrorKind::Interrupted.into());
        }
        if let (true, Some(kind)) = (self.bytes.is_empty(), self.failure) {
            return Err(kind.into());
        }
        let count = self.length.min(buffer.len()).min(self.bytes.len());
        let (piece, rest) = self.bytes.split_at(count);
        buffer[..count].copy_from_slice(piece);
        self.bytes = rest;
        Ok(count)
    }
}

fn stream(
    bytes: &[u8],
    length: usize,
    failure: Option<ErrorKind>,
) -> (Vec<u8>, Result<(), RunError>) {
    let mut printed = Vec::new();
    let pieces = Pieces {
        bytes,
        length,
        interrupt: false,
        failure,
    };
    let result = run_stream(pieces, &mut printed);
    (printed, result)
}

#[test]
fn streams_in_pieces_of_any_length_print_the_same() {
    let log = random_log(7, Mix::BROAD, 40_000);
    assert!(log.len() > 2 * EDGE);
    let expected = run_slice(&log);
    for length in [1, 2, 3, 5, 7, 64, 4_095, EDGE - 1, EDGE, EDGE + 1] {
        let (printed, result) = stream(&log, length, None);
        assert!(result.is_ok());
        assert!(printed == expected, "pieces of {length} bytes");
    }
}

#[test]
fn streams_end_as_whole_logs_do_after_a_2_and_a_3() {
    let whole = random_log(8, Mix::BROAD, 25_000);
    for tail in [&[0x7F, 1, 1][..], &[0x04, 0, 1, 9], &[0x0A]] {
        let log = [&whole[..], tail].concat();
        let expected = run_slice(&log);
        assert_eq!(stream(&log, 1_000, None).0, expected);
        assert_eq!(replay(&log), expected);
    }
}

/// After a read error: the records that were read whole, and no `end`.
#[test]
fn a_read_error_is_not_the_logs_end() {
    let log = random_log(9, Mix::BROAD, 5_000);
    let printed_whole = run_slice(&log);
    for cut in [0, 1, 2, 3, log.len() - 1, log.len()] {
        let (printed, result) = stream(&log[..cut], 500, Some(ErrorKind::ConnectionReset));
        assert!(matches!(result, Err(RunError::Read(_))));
        assert!(printed_whole.starts_with(&printed));
        let lines = printed.iter().filter(|&&byte| byte == b'\n').count();
        let whole = match cut {
            0..=2 => 0,
            3 => 1,
            _ if cut < log.len() => 4_999,
            _ => 5_000,
        };
        assert_eq!(lines, whole, "cut at {cut}");
    }
}

#[test]
fn program_reports_an_unreadable_input() {
    let directory = File::open(env!("CARGO_TARGET_TMPDIR")).unwrap();
    let path = scratch_file("write-only.log");
    let write_only = OpenOptions::new()
        .create(true)
        .truncate(true)
        .write(true)
        .open(path)
        .unwrap();
    for unreadable in [directory, write_only] {
        let output = replay_from(unreadable.into());
        assert_eq!(output.status.code(), Some(1));
        assert!(output.stdout.is_empty());
        let report = String::from_utf8(output.stderr).unwrap();
        assert!(report.contains("cannot read the log"), "{report}");
    }
}
