//! Runs the built program `engine-replay` on some standard input.

use std::io::Write;
use std::process::{Command, Output, Stdio};

/// The program's output with this as its standard input.
pub fn replay_from(input: Stdio) -> Output {
    Command::new(env!("CARGO_BIN_EXE_engine-replay"))
        .stdin(input)
        .output()
        .expect("the program runs")
}

/// What the program prints for a log given through a pipe.
pub fn replay(log: &[u8]) -> Vec<u8> {
    let mut program = Command::new(env!("CARGO_BIN_EXE_engine-replay"))
        .stdin(Stdio::piped())
        .stdout(Stdio::piped())
        .spawn()
        .expect("the program runs");
    let mut input = program.stdin.take().unwrap();
    let output = std::thread::scope(|scope| {
        // A program that stops at a refused record leaves the rest unread.
        scope.spawn(move || input.write_all(log).is_ok());
        program.wait_with_output().unwrap()
    });
    assert!(output.status.success());
    output.stdout
}
