//! A program that has been started: what it prints, what it says on standard
//! error and how it ends, each awaited up to a time limit.

use std::io::{Read, Write};
use std::process::{Child, ChildStdin, Command, ExitStatus, Stdio};
use std::sync::mpsc::{self, Receiver};
use std::thread;
use std::time::{Duration, Instant};

/// The longest wait for lines, and for the program's end.
const TIME_LIMIT: Duration = Duration::from_secs(20);

/// Whether it has ended is asked so often.
const ASKED_APART: Duration = Duration::from_millis(2);

/// What comes out of a program, read beside it. It is closed once this is gone.
struct Stream {
    pieces: Receiver<Vec<u8>>,
    text: Vec<u8>,
}

impl Stream {
    fn of(mut source: impl Read + Send + 'static) -> Stream {
        let (sender, pieces) = mpsc::channel();
        thread::spawn(move || {
            let mut piece = [0; 4_096];
            while let Ok(count @ 1..) = source.read(&mut piece) {
                if sender.send(piece[..count].to_vec()).is_err() {
                    return;
                }
            }
        });
        let text = Vec::new();
        Stream { pieces, text }
    }

    /// Everything up to the stream's end, or until this much is there, or the
    /// time is over.
    fn await_text(&mut self, enough: impl Fn(&[u8]) -> bool) -> &[u8] {
        let begun = Instant::now();
        while !enough(&self.text) {
            let left = TIME_LIMIT.saturating_sub(begun.elapsed());
            match self.pieces.recv_timeout(left) {
                Ok(piece) => self.text.extend(piece),
                Err(_) => break,
            }
        }
        &self.text
    }
}

/// A program that has been started.
pub struct Running {
    child: Child,
    input: Option<ChildStdin>,
    printed: Option<Stream>,
    said: Stream,
}

/// How a program ended, and all that came out of it where that was piped and
/// is still read.
#[derive(Debug)]
pub struct End {
    pub status: ExitStatus,
    pub printed: String,
    pub said: String,
}

impl Running {
    /// Starts a program. Its standard input and output are those of the
    /// command, its standard error is read here.
    pub fn start(command: &mut Command) -> Running {
        let mut child = command.stderr(Stdio::piped()).spawn().unwrap();
        Running {
            input: child.stdin.take(),
            printed: child.stdout.take().map(Stream::of),
            said: Stream::of(child.stderr.take().unwrap()),
            child,
        }
    }

    /// Starts a program with its standard input and output piped.
    pub fn start_piped(command: &mut Command) -> Running {
        Running::start(command.stdin(Stdio::piped()).stdout(Stdio::piped()))
    }

    /// Gives it bytes, so few that they fit into the pipe.
    pub fn write(&mut self, bytes: &[u8]) {
        let input = self.input.as_mut().expect("the input is an open pipe");
        input.write_all(bytes).unwrap();
    }

    pub fn close_input(&mut self) {
        self.input = None;
    }

    /// What it has printed once that is so many lines, or no more come in time.
    pub fn printed_to(&mut self, lines: usize) -> String {
        let printed = self.printed.as_mut().expect("the output is piped");
        let text = printed.await_text(|text| {
            let ends = text.iter().filter(|&&byte| byte == b'\n');
            ends.count() >= lines
        });
        String::from_utf8_lossy(text).into_owned()
    }

    /// Its reader goes away.
    pub fn stop_reading(&mut self) {
        self.printed = None;
    }

    /// Its end, without anything more for it to read. Fails where it does not
    /// end in time.
    pub fn end(mut self) -> End {
        let begun = Instant::now();
        let status = loop {
            if let Some(status) = self.child.try_wait().unwrap() {
                break status;
            }
            assert!(begun.elapsed() < TIME_LIMIT, "does not end in time");
            thread::sleep(ASKED_APART);
        };
        let all = |stream: &mut Stream| {
            let text = stream.await_text(|_| false);
            String::from_utf8_lossy(text).into_owned()
        };
        End {
            status,
            printed: self.printed.as_mut().map(all).unwrap_or_default(),
            said: all(&mut self.said),
        }
    }
}

impl Drop for Running {
    fn drop(&mut self) {
        // Where it has ended by itself there is nothing to end.
        let _ = self.child.kill();
        let _ = self.child.wait();
    }
}
