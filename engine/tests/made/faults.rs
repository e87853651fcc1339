//! Outputs that cannot be written to their end, slow readers, and readers that
//! go away.

use crate::made_up_log::made_up_log;
use crate::program::{End, Program};
use std::fs::{self, File};
use std::io::Read;
use std::path::Path;
use std::process::{Child, ChildStdout, Command, Stdio};
use std::thread;
use std::time::Duration;

const UNWRITABLE: &str = "standard output cannot be written";

/// A pass that is longer than what is written at a time, and one without end.
const LONG: &str = "60000";
const ENDLESS: &str = "18446744073709551615";

/// The log of `1 60000`, and the beginning of every longer one from seed 1.
fn long_log() -> Vec<u8> {
    made_up_log(1, 60_000)
}

#[test]
fn a_full_disk_is_told() {
    for program in Program::all() {
        for count in ["1", LONG, ENDLESS] {
            let full = File::options().write(true).open("/dev/full").unwrap();
            let mut command = program.command(&["1", count]);
            let output = command.stdout(full).output().unwrap();
            assert_eq!(End::of(&output), program.telling(UNWRITABLE));
        }
    }
}

/// What had room is there, and not a byte of it is missing or twice there.
#[test]
fn a_disk_that_gets_full_is_told() {
    const ROOM: usize = 100 * 1_024;
    let place = Path::new(env!("CARGO_TARGET_TMPDIR")).join("made-gets-full.log");
    for program in Program::all() {
        let shell = "trap '' XFSZ; ulimit -f 100; exec \"$@\"";
        let mut command = program.command_in(shell, &["1", ENDLESS]);
        command.stdout(File::create(&place).unwrap());
        let output = command.output().unwrap();
        assert_eq!(End::of(&output), program.telling(UNWRITABLE));
        assert!(fs::read(&place).unwrap() == long_log()[..ROOM]);
    }
}

/// Of the proved program alone: a Rust program is given another output for one
/// that is closed.
#[test]
fn a_closed_output_is_told() {
    let Some(program) = Program::proved() else {
        return;
    };
    for count in ["1", LONG, ENDLESS] {
        let mut command = program.command_in("exec \"$@\" >&-", &["1", count]);
        let output = command.output().unwrap();
        assert_eq!(End::of(&output), program.telling(UNWRITABLE));
    }
}

/// A program that has been started, and what it writes.
fn start(mut command: Command) -> (Child, ChildStdout) {
    let mut child = command.stdout(Stdio::piped()).spawn().unwrap();
    let reader = child.stdout.take().unwrap();
    (child, reader)
}

/// The next so many bytes that a program writes.
fn read(reader: &mut ChildStdout, length: usize) -> Vec<u8> {
    let mut bytes = vec![0; length];
    reader.read_exact(&mut bytes).expect("so much is written");
    bytes
}

/// It tells that nobody reads, and stops. The kit's programs ignore the signal
/// by which the system ends programs that write to nobody.
#[test]
fn a_reader_that_goes_away_ends_it() {
    let Some(program) = Program::proved() else {
        return;
    };
    let log = made_up_log(1, 400_000);
    for length in [0, 1, 65_534, 100_000, 1_000_000] {
        let (child, mut reader) = start(program.command(&["1", ENDLESS]));
        assert!(read(&mut reader, length) == log[..length]);
        drop(reader);
        let output = child.wait_with_output().unwrap();
        assert_eq!(End::of(&output), program.telling(UNWRITABLE));
    }
}

/// So it does where the signal was ignored before.
#[test]
fn a_reader_that_goes_away_is_told_where_the_signal_is_ignored() {
    for program in Program::all() {
        let shell = "trap '' PIPE; exec \"$@\"";
        let (child, mut reader) = start(program.command_in(shell, &["1", ENDLESS]));
        assert!(read(&mut reader, 100_000) == long_log()[..100_000]);
        drop(reader);
        let output = child.wait_with_output().unwrap();
        assert_eq!(End::of(&output), program.telling(UNWRITABLE));
    }
}

/// Reads the long pass in pieces of a length, and does something to the program
/// after each: its bytes come whole, and it ends well.
fn assert_comes_whole(piece: usize, after_each: impl Fn(&Child)) {
    let log = long_log();
    for program in Program::all() {
        let (child, mut reader) = start(program.command(&["1", LONG]));
        for expected in log.chunks(piece) {
            assert!(read(&mut reader, expected.len()) == expected);
            after_each(&child);
        }
        assert_eq!(reader.read(&mut [0]).unwrap(), 0);
        let output = child.wait_with_output().unwrap();
        assert_eq!(End::of(&output), End::well());
    }
}

#[test]
fn a_reader_of_single_bytes_gets_them_all() {
    assert_comes_whole(1, |_| ());
}

#[test]
fn a_slow_reader_gets_every_byte() {
    assert_comes_whole(1_000, |_| thread::sleep(Duration::from_millis(2)));
}

/// A program that is stopped while it waits for a reader, and goes on, finds
/// that a part of its piece has been written. Its time limit makes it a process
/// group of its own, which gets the signals.
#[test]
fn pieces_that_are_written_in_parts_come_whole() {
    assert_comes_whole(20_000, |child| {
        thread::sleep(Duration::from_millis(20));
        let shell = "kill -STOP -- -$0; kill -CONT -- -$0";
        let mut stop_and_continue = Command::new("bash");
        stop_and_continue.args(["-c", shell, &child.id().to_string()]);
        assert!(stop_and_continue.status().unwrap().success());
    });
}
