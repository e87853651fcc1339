//! The command line behind `./run`, asked for words.

use crate::proved_program::{program_at, USUAL_PLACE};
use engine::text::encode;
use std::fs;
use std::path::{Path, PathBuf};
use std::process::{Command, Output, Stdio};

const ROOT: &str = concat!(env!("CARGO_MANIFEST_DIR"), "/..");

/// The program, asked to tell a file or standard input; none where there is no
/// proved program to run.
pub fn words(file: impl AsRef<Path>) -> Option<Command> {
    program_at(USUAL_PLACE)?;
    let mut command = Command::new(env!("CARGO_BIN_EXE_command-line"));
    command.args([ROOT, "--words"]).arg(file.as_ref());
    command.stdin(Stdio::null());
    Some(command)
}

/// A file of these bytes, for a test alone.
pub fn file_with(name: &str, bytes: &[u8]) -> PathBuf {
    let path = PathBuf::from(env!("CARGO_TARGET_TMPDIR")).join(format!("words-{name}"));
    fs::write(&path, bytes).unwrap();
    path
}

/// The log of some steps, `start 0 0, call 0 1`.
pub fn log_of(steps: &str) -> Vec<u8> {
    encode(&steps.replace(", ", "\n")).unwrap()
}

/// What a program printed that ended well and said nothing.
pub fn printed(output: Output) -> String {
    let said = String::from_utf8(output.stderr).unwrap();
    assert_eq!((output.status.code(), &said[..]), (Some(0), ""));
    String::from_utf8(output.stdout).unwrap()
}

/// What is told of a log, which comes from a file of this name.
pub fn told_of(name: &str, log: &[u8]) -> Option<String> {
    let mut command = words(file_with(name, log))?;
    Some(printed(command.output().unwrap()))
}

/// This, and nothing else, is told of a log from a file of this name.
pub fn assert_told(name: &str, log: &[u8], expected: &str) {
    if let Some(told) = told_of(name, log) {
        assert_eq!(told, expected);
    }
}

/// The lines of the printed run among those that are told.
pub fn run_within(told: &str) -> String {
    let lines = told.split_inclusive('\n');
    lines.filter(|line| !line.starts_with(' ')).collect()
}
