//! Where a log comes from: a log or its text, from a file or from standard
//! input, which may still be open.

use crate::program::{file_with, log_of, printed, told_of, words};
use std::fs::File;
use std::io::{BufRead, BufReader, Write};
use std::process::{Command, Stdio};
use std::sync::mpsc::{self, Receiver};
use std::thread;
use std::time::Duration;

/// The longest wait for a line.
const TIME_LIMIT: Duration = Duration::from_secs(20);

const TEXT: &str = "# both run\nstart 0 0\nstart 1 1\ncall 0 1\n\nroute 0 1\nsend 0 1 500\n";

/// What is told where the bytes come on standard input, through a pipe.
fn told_piped(command: &mut Command, bytes: &[u8]) -> String {
    command.stdin(Stdio::piped()).stdout(Stdio::piped());
    let mut child = command.stderr(Stdio::piped()).spawn().unwrap();
    child.stdin.take().unwrap().write_all(bytes).unwrap();
    printed(child.wait_with_output().unwrap())
}

#[test]
fn logs_and_texts_are_told_alike_from_a_file_and_from_standard_input() {
    let log = log_of("start 0 0, start 1 1, call 0 1, route 0 1, send 0 1 500");
    let Some(expected) = told_of("input.log", &log) else {
        return;
    };
    assert!(expected.starts_with("0 01 0 0 1 0\n    start 0 0: rank 0 starts on host 0;"));
    assert_eq!(told_of("input.txt", TEXT.as_bytes()).unwrap(), expected);
    for (name, bytes) in [
        ("standard.log", &log[..]),
        ("standard.txt", TEXT.as_bytes()),
    ] {
        let mut command = words("-").unwrap();
        assert_eq!(told_piped(&mut command, bytes), expected, "{name}");
        let file = File::open(file_with(name, bytes)).unwrap();
        let output = words("-").unwrap().stdin(file).output().unwrap();
        assert_eq!(printed(output), expected, "{name}");
    }
}

/// The lines that a command prints, each as it comes.
fn lines_of(output: impl std::io::Read + Send + 'static) -> Receiver<String> {
    let (sender, lines) = mpsc::channel();
    thread::spawn(move || {
        for line in BufReader::new(output).lines().map_while(Result::ok) {
            if sender.send(line).is_err() {
                return;
            }
        }
    });
    lines
}

/// A record is told before the next one comes, and a byte that is no kind ends
/// it all, though more could come.
#[test]
fn records_are_told_while_the_input_is_open() {
    let Some(mut command) = words("-") else {
        return;
    };
    command.stdin(Stdio::piped()).stdout(Stdio::piped());
    let mut child = command.spawn().unwrap();
    let mut input = child.stdin.take().unwrap();
    let lines = lines_of(child.stdout.take().unwrap());
    for (record, count) in [("start 0 0", 2), ("look 0", 3), ("bytes 7f", 3)] {
        input.write_all(&log_of(record)).unwrap();
        let come: Vec<_> = (0..count).map(|_| lines.recv_timeout(TIME_LIMIT)).collect();
        let words = come[1].as_ref().expect("a record is told at once");
        let told = record.starts_with("bytes") || words.contains(record);
        assert!(told && come.iter().all(Result::is_ok), "{come:?}");
    }
    let rest: Vec<String> = lines.iter().collect();
    assert_eq!(rest.first().map(String::as_str), Some("end"));
    assert!(child.wait().unwrap().success());
    drop(input);
}
