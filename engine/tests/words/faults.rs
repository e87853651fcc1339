//! Outputs that cannot be written and inputs that cannot be read.

use crate::program::{file_with, log_of, words};
use engine::proposals::{random_log, Mix};
use std::fs::File;
use std::io::{BufRead, BufReader, Read};
use std::process::{Output, Stdio};

fn status_and_words(output: &Output) -> (Option<i32>, String, String) {
    let text = |bytes: &[u8]| String::from_utf8_lossy(bytes).into_owned();
    let (printed, said) = (text(&output.stdout), text(&output.stderr));
    (output.status.code(), printed, said)
}

/// Whether what is told is short or long.
#[test]
fn a_full_disk_ends_with_1() {
    let long = random_log(42, Mix::BROAD, 20_000);
    for (name, log) in [("short.log", log_of("start 0 0")), ("long.log", long)] {
        let Some(mut command) = words(file_with(name, &log)) else {
            return;
        };
        let full = File::options().write(true).open("/dev/full").unwrap();
        let output = command.stdout(full).output().unwrap();
        let (status, _, said) = status_and_words(&output);
        let told = said.starts_with("standard output cannot be written: No space left");
        assert!(
            status == Some(1) && told && said.lines().count() == 1,
            "{said}"
        );
    }
}

#[test]
fn a_reader_that_goes_away_is_no_error() {
    let log = random_log(43, Mix::BROAD, 200_000);
    let Some(mut command) = words(file_with("reader.log", &log)) else {
        return;
    };
    command.stdout(Stdio::piped()).stderr(Stdio::piped());
    let mut child = command.spawn().unwrap();
    let mut output = BufReader::new(child.stdout.take().unwrap());
    let mut line = String::new();
    output.read_line(&mut line).unwrap();
    assert!(line.starts_with("0 "), "{line}");
    drop(output);
    let mut said = String::new();
    child
        .stderr
        .take()
        .unwrap()
        .read_to_string(&mut said)
        .unwrap();
    assert_eq!((child.wait().unwrap().code(), &said[..]), (Some(0), ""));
}

#[test]
fn what_cannot_be_read_ends_with_1() {
    let wrong = file_with("wrong.txt", b"start 0 0\nsned 0 1 500\n");
    let wrong = wrong.display().to_string();
    let problem = format!("{wrong}, line 2: 'sned' is no record kind;");
    for (file, problem) in [
        (
            "none.log",
            "none.log cannot be read: No such file or directory",
        ),
        ("/", "/ cannot be read: Is a directory"),
        (&wrong, &problem),
    ] {
        let Some(mut command) = words(file) else {
            return;
        };
        let (status, printed, said) = status_and_words(&command.output().unwrap());
        assert_eq!((status, &printed[..]), (Some(1), ""), "{file}");
        assert!(said.starts_with(problem), "{said}");
    }
}
