//! The program to compare with: where it is, and how it is run. A run that
//! prints without end or does not stop is ended, and reported.

use crate::proved_program::{program_at, USUAL_PLACE};
use std::env;
use std::fs::File;
use std::io::{self, Read, Write};
use std::path::PathBuf;
use std::process::{ChildStderr, ChildStdin, ChildStdout, Command, Output, Stdio};
use std::sync::{mpsc, Mutex, MutexGuard, PoisonError};
use std::thread;
use std::time::{Duration, Instant};

/// A single run may take so long.
const TIME_LIMIT: Duration = Duration::from_secs(60);

/// More than a report of an error is not read from standard error.
const LONGEST_REPORT: u64 = 4_096;

/// Between the pieces of an input that comes slowly; the system makes it some
/// ten times as long.
const PAUSE: Duration = Duration::from_micros(5);

/// Once an input has come slowly for so long, its pauses end.
const SLOWLY: Duration = Duration::from_secs(15);

/// A program's standard input.
pub enum Input<'a> {
    /// A log through a pipe, in pieces of these lengths in turn.
    Pipe(&'a [u8], Vec<usize>),
    /// A file.
    File(File),
}

/// A program that can be run.
pub struct Program {
    pub path: PathBuf,
    _turn: MutexGuard<'static, ()>,
}

impl Program {
    /// The program that `REPLAY` names, else the one at its usual place, for
    /// one test at a time.
    pub fn find() -> Option<Program> {
        static TURN: Mutex<()> = Mutex::new(());
        let place = env::var_os("REPLAY").unwrap_or_else(|| USUAL_PLACE.into());
        Some(Program {
            path: program_at(place)?,
            _turn: TURN.lock().unwrap_or_else(PoisonError::into_inner),
        })
    }

    /// Runs the program. It may print at most so many bytes.
    pub fn run(&self, input: Input, longest: usize) -> Result<Output, String> {
        let (stdin, pipe) = match input {
            Input::Pipe(log, lengths) => (Stdio::piped(), Some((log, lengths))),
            Input::File(file) => (file.into(), None),
        };
        let mut child = Command::new(&self.path)
            .stdin(stdin)
            .stdout(Stdio::piped())
            .stderr(Stdio::piped())
            .spawn()
            .map_err(|error| format!("cannot run {}: {error}", self.path.display()))?;
        let stdin = child.stdin.take();
        let stdout = child.stdout.take().expect("standard output is a pipe");
        let stderr = child.stderr.take().expect("standard error is a pipe");
        thread::scope(|scope| {
            if let (Some(stdin), Some((log, lengths))) = (stdin, pipe) {
                scope.spawn(move || write_pieces(stdin, log, &lengths));
            }
            let (sender, receiver) = mpsc::channel();
            scope.spawn(move || sender.send(read_both(stdout, stderr, longest)));
            let printed = match receiver.recv_timeout(TIME_LIMIT) {
                Ok(Ok((stdout, _))) if stdout.len() > longest => {
                    Err(format!("prints more than {longest} bytes"))
                }
                Ok(read) => read.map_err(|error| format!("cannot read what it prints: {error}")),
                Err(_) => Err(format!("does not stop within {TIME_LIMIT:?}")),
            };
            if printed.is_err() {
                // Where it has just stopped by itself there is nothing to end.
                let _ = child.kill();
            }
            let status = child.wait().map_err(|error| error.to_string())?;
            printed.map(|(stdout, stderr)| Output {
                status,
                stdout,
                stderr,
            })
        })
    }
}

/// A program that stops at a refused record leaves the rest unread, and then
/// it cannot be written.
fn write_pieces(mut stdin: ChildStdin, log: &[u8], lengths: &[usize]) {
    let begun = Instant::now();
    let mut rest = log;
    for &length in lengths.iter().cycle() {
        let (piece, later) = rest.split_at(length.min(rest.len()));
        if stdin.write_all(piece).is_err() || later.is_empty() {
            return;
        }
        rest = later;
        if begun.elapsed() < SLOWLY {
            thread::sleep(PAUSE);
        }
    }
}

/// One byte more than the longest allowed text shows that it is too long.
fn read_both(
    stdout: ChildStdout,
    stderr: ChildStderr,
    longest: usize,
) -> io::Result<(Vec<u8>, Vec<u8>)> {
    let mut printed = (Vec::new(), Vec::new());
    stdout
        .take(longest as u64 + 1)
        .read_to_end(&mut printed.0)?;
    if printed.0.len() <= longest {
        stderr.take(LONGEST_REPORT).read_to_end(&mut printed.1)?;
    }
    Ok(printed)
}
