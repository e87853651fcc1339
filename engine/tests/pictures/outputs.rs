//! Where a picture can't be put.

use crate::drawing::{command, end_of, example, file_with};
use engine::proposals::{random_log, Mix};
use std::fs::File;
use std::process::Stdio;

#[test]
fn a_full_disk_ends_with_1() {
    let Some(mut command) = command(&[&example("listing")]) else {
        return;
    };
    let full = File::options().write(true).open("/dev/full").unwrap();
    let output = command.stdout(full).stderr(Stdio::piped()).spawn().unwrap();
    let output = output.wait_with_output().unwrap();
    assert_eq!(output.status.code(), Some(1));
    let said = String::from_utf8(output.stderr).unwrap();
    assert!(
        said.starts_with("standard output cannot be written: "),
        "{said}"
    );
}

#[test]
fn a_reader_that_goes_away_is_no_error() {
    let log = file_with("reader.log", &random_log(5, Mix::TRAFFIC, 50_000));
    for arguments in [&[&example("listing")[..]][..], &[&log, "40000", "40119"]] {
        let Some(mut command) = command(arguments) else {
            return;
        };
        command.stdout(Stdio::piped()).stderr(Stdio::piped());
        let mut child = command.spawn().unwrap();
        drop(child.stdout.take());
        let output = child.wait_with_output().unwrap();
        assert_eq!(
            (output.status.code(), &output.stderr[..]),
            (Some(0), &b""[..])
        );
    }
}

#[test]
fn the_same_log_makes_the_same_picture() {
    let log = file_with("same.log", &random_log(6, Mix::TRAFFIC, 5_000));
    let arguments = [&log[..], "4001", "4120"];
    let Some(mut command) = command(&arguments) else {
        return;
    };
    assert_eq!(end_of(&mut command), end_of(&mut command));
}
