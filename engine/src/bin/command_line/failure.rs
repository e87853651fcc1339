//! Why a request was not served, and the exit status that says so.

use crate::options::USAGE;
use std::io::{self, ErrorKind, Write};
use std::process::ExitCode;

/// Why a request was not served to its end.
#[derive(Debug)]
pub enum Failure {
    /// The arguments are none that the usage has: status 2.
    Usage(String),
    /// What can't be read, written, built, drawn or made up: status 1.
    Told(String),
    /// The same, where the proved program has said it already.
    SaidAlready,
    /// Whoever read the output went away, which is no failure.
    ReaderGone,
}

impl Failure {
    /// Says it on standard error, and gives the status.
    pub fn told(self) -> ExitCode {
        let (text, status) = match self {
            Failure::Usage(problem) => (format!("{problem}\n{USAGE}"), 2),
            Failure::Told(problem) => (format!("{problem}\n"), 1),
            Failure::SaidAlready => (String::new(), 1),
            Failure::ReaderGone => (String::new(), 0),
        };
        // Where even this cannot be written, the status still tells.
        let _ = io::stderr().write_all(text.as_bytes());
        ExitCode::from(status)
    }
}

/// An error of standard output.
impl From<io::Error> for Failure {
    fn from(error: io::Error) -> Failure {
        match error.kind() {
            ErrorKind::BrokenPipe => Failure::ReaderGone,
            _ => Failure::Told(format!("standard output cannot be written: {error}")),
        }
    }
}
