//! `./run` on streams that fail: it ends with 1 where something can't be read
//! or written, said on standard error, and with 0 where only its reader went
//! away.

use crate::printed_run::LISTING;
use crate::program::{assert_lines_come_at_once, UNWRITABLE};
use crate::proved_program::{program_at, USUAL_PLACE};
use crate::records::{file_with, full_disk, long_log};
use crate::release_programs::build_release;
use crate::running::{End, Running};
use engine::run_slice;
use std::process::{Command, Stdio};

const ROOT: &str = concat!(env!("CARGO_MANIFEST_DIR"), "/..");

/// A line of shell in the repository's root, where the script is. What the
/// script would build for these arguments, in its own time, is there before.
pub fn shell_after(arguments: &[&str], line: &str) -> Option<Command> {
    program_at(USUAL_PLACE)?;
    build_release(arguments);
    let mut command = Command::new("bash");
    command.args(["-c", line]).current_dir(ROOT);
    command.env("LC_ALL", "C").stdin(Stdio::null());
    Some(command)
}

fn shell(line: &str) -> Option<Command> {
    shell_after(&[], line)
}

/// How a line of shell ends, with its output piped.
fn end_of(line: &str) -> Option<End> {
    let mut command = shell(line)?;
    Some(Running::start(command.stdout(Stdio::piped())).end())
}

pub fn assert_end(end: &End, code: i32, printed: &str, said: &str) {
    let found = (end.status.code(), &end.printed[..], &end.said[..]);
    assert_eq!(found, (Some(code), printed, said));
}

#[test]
fn a_run_that_is_whole_ends_with_0() {
    for line in ["exec ./run", "./run - <crates/replay/stdin"] {
        let Some(end) = end_of(line) else { return };
        assert_end(&end, 0, LISTING, "");
    }
}

#[test]
fn a_full_disk_ends_with_1() {
    for line in [
        "exec ./run",
        "cat crates/replay/stdin | ./run -",
        "exec ./run --text examples/listing.txt",
    ] {
        let Some(mut command) = shell(line) else {
            return;
        };
        let end = Running::start(command.stdout(full_disk())).end();
        assert_end(&end, 1, "", UNWRITABLE);
    }
}

#[test]
fn a_closed_output_ends_with_1() {
    let Some(end) = end_of("exec ./run >&-") else {
        return;
    };
    assert_end(&end, 1, "", UNWRITABLE);
}

#[test]
fn an_input_that_cannot_be_read_ends_with_1() {
    for (line, name) in [
        ("exec ./run docs", "docs"),
        ("exec ./run --text docs", "docs"),
        ("exec ./run - <docs", "standard input"),
        ("exec ./run - <&-", "standard input"),
        ("exec ./run --text - <&-", "standard input"),
    ] {
        let Some(end) = end_of(line) else { return };
        let said = format!("{name} cannot be read: Is a directory (os error 21)\n");
        assert_end(&end, 1, "", &said);
    }
}

/// The status tells it also where nothing can be said.
#[test]
fn a_closed_standard_error_does_not_hide_it() {
    let Some(end) = end_of("exec ./run docs 2>&-") else {
        return;
    };
    assert_end(&end, 1, "", "");
}

#[test]
fn a_file_that_is_not_there_ends_with_1() {
    for line in ["exec ./run none.log", "exec ./run --text none.log"] {
        let Some(end) = end_of(line) else { return };
        let said = "none.log cannot be read: No such file or directory (os error 2)\n";
        assert_end(&end, 1, "", said);
    }
}

#[test]
fn a_reader_that_goes_away_is_no_error() {
    let log = long_log();
    let run = String::from_utf8(run_slice(&log)).unwrap();
    let first = run.split_inclusive('\n').next().unwrap();
    let log = file_with("script-reader.log", &log);
    for (command, reader, read) in [
        ("./run".to_owned(), "head -n 1", "0 01 0 0 1 0\n"),
        (format!("./run '{}'", log.display()), "head -n 1", first),
        (format!("./run '{}'", log.display()), "true", ""),
    ] {
        let line = format!("{command} | {reader}; exit ${{PIPESTATUS[0]}}");
        let Some(end) = end_of(&line) else { return };
        assert_end(&end, 0, read, "");
    }
}

#[test]
fn lines_come_while_the_input_is_open() {
    let Some(mut command) = shell("exec ./run -") else {
        return;
    };
    let end = assert_lines_come_at_once(Running::start_piped(&mut command));
    assert_end(&end, 0, LISTING, "");
}
