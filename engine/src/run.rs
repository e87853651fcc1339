//! Paper 01, "The printed run": a log is run from a fresh desk, a line is
//! printed for each record, then the pairs with unread messages, then `end`.
//! A log is a slice, or a stream read through at most 65,536 bytes.

use crate::desk::Desk;
use crate::lines::{print_record, print_unread, LONGEST_LINE};
use crate::refusal::{Answer, Refusal};
use std::fmt;
use std::io::{self, ErrorKind, Read, Write};

/// "Read through at most 65,536 bytes."
const WINDOW_BYTES: usize = 65_536;

/// Printed text is handed on in pieces of about this size.
const PIECE_BYTES: usize = 65_536;

/// What kept a run from being read or printed to its end.
#[derive(Debug)]
pub enum RunError {
    /// The log could not be read further; this is not the log's end.
    Read(io::Error),
    /// The text could not be handed on.
    Write(io::Error),
}

impl fmt::Display for RunError {
    fn fmt(&self, formatter: &mut fmt::Formatter<'_>) -> fmt::Result {
        match self {
            RunError::Read(error) => write!(formatter, "cannot read the log: {error}"),
            RunError::Write(error) => write!(formatter, "cannot print the run: {error}"),
        }
    }
}

impl std::error::Error for RunError {}

/// The printed run of a whole log.
pub fn run_slice(log: &[u8]) -> Vec<u8> {
    let mut desk = Desk::fresh();
    let mut text = Vec::new();
    let mut position = 0;
    while let Some(&kind) = log.get(position) {
        let outcome = desk.step_sound(log, position as u64);
        print_record(&mut text, position as u64, kind, &outcome.answer);
        if stops_run(&outcome.answer) {
            break;
        }
        position = outcome.next as usize;
    }
    print_unread(&mut text, &desk);
    text
}

/// Prints the run of a log that is read piece by piece. After a read error the
/// lines of the records run so far are handed on, without pairs and `end`.
pub fn run_stream(input: impl Read, mut output: impl Write) -> Result<(), RunError> {
    let mut desk = Desk::fresh();
    let mut window = Window::new(input);
    let mut text = Vec::with_capacity(PIECE_BYTES + LONGEST_LINE);
    loop {
        let outcome = desk.step_sound(window.filled(), window.start as u64);
        if outcome.answer == Err(Refusal::CutShort) && !window.log_ended {
            if let Err(error) = window.refill() {
                output.write_all(&text).map_err(RunError::Write)?;
                return Err(RunError::Read(error));
            }
            continue;
        }
        let Some(&kind) = window.filled().get(window.start) else {
            break;
        };
        print_record(&mut text, window.position(), kind, &outcome.answer);
        if stops_run(&outcome.answer) {
            break;
        }
        window.start = outcome.next as usize;
        if text.len() >= PIECE_BYTES {
            output.write_all(&text).map_err(RunError::Write)?;
            text.clear();
        }
    }
    print_unread(&mut text, &desk);
    output.write_all(&text).map_err(RunError::Write)?;
    output.flush().map_err(RunError::Write)
}

/// The part of a log that is in memory: the bytes from `start` to `end` are
/// still to be run, and byte 0 of `bytes` is at `origin` in the log.
struct Window<R> {
    source: R,
    bytes: Box<[u8]>,
    start: usize,
    end: usize,
    origin: u64,
    log_ended: bool,
}

impl<R: Read> Window<R> {
    fn new(source: R) -> Window<R> {
        Window {
            source,
            bytes: vec![0; WINDOW_BYTES].into_boxed_slice(),
            start: 0,
            end: 0,
            origin: 0,
            log_ended: false,
        }
    }

    fn filled(&self) -> &[u8] {
        &self.bytes[..self.end]
    }

    /// "Positions count from its start."
    fn position(&self) -> u64 {
        self.origin + self.start as u64
    }

    /// Brings a record that the window's edge cut to the front and reads on
    /// behind it, so that it becomes whole.
    fn refill(&mut self) -> io::Result<()> {
        self.bytes.copy_within(self.start..self.end, 0);
        self.origin += self.start as u64;
        self.end -= self.start;
        self.start = 0;
        loop {
            match self.source.read(&mut self.bytes[self.end..]) {
                Ok(count) => {
                    self.end += count;
                    self.log_ended = count == 0;
                    return Ok(());
                }
                Err(error) if error.kind() == ErrorKind::Interrupted => {}
                Err(error) => return Err(error),
            }
        }
    }
}

/// "It stops at the log's end without a line for it, or after a 2 or 3."
fn stops_run(answer: &Answer) -> bool {
    answer.is_err_and(Refusal::keeps_position)
}
