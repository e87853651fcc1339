//! The two programs and how they are run. Every run has a time limit: a program
//! that is not done by then is killed, which its status tells.

use crate::proved_program::{program_at, USUAL_PLACE};
use std::ffi::OsStr;
use std::fmt::Debug;
use std::path::{Path, PathBuf};
use std::process::{Command, Output, Stdio};

/// The longest run, in seconds.
const TIME_LIMIT: &str = "20";

/// A program that writes a made-up pass.
pub struct Program {
    path: PathBuf,
    /// What it calls itself where it tells something.
    name: &'static str,
    /// Its exit code then.
    code: i32,
}

impl Program {
    /// The proved program, whose crate stands beside that of the one that prints
    /// runs. It has no exit code of its own.
    pub fn proved() -> Option<Program> {
        let crates = Path::new(USUAL_PLACE).ancestors().nth(3).unwrap();
        let place = crates.join("made_up/out/made_up");
        Some(Program {
            path: program_at(place)?,
            name: "made_up",
            code: 0,
        })
    }

    fn rust() -> Program {
        Program {
            path: env!("CARGO_BIN_EXE_made-up").into(),
            name: "made-up",
            code: 1,
        }
    }

    /// The programs that are there.
    pub fn all() -> impl Iterator<Item = Program> {
        [Some(Program::rust()), Program::proved()]
            .into_iter()
            .flatten()
    }

    /// The program with these arguments.
    pub fn command(&self, arguments: &[impl AsRef<OsStr>]) -> Command {
        self.command_in("exec \"$@\"", arguments)
    }

    /// The program with these arguments behind a line of shell, which calls all
    /// of it `$@`.
    pub fn command_in(&self, shell: &str, arguments: &[impl AsRef<OsStr>]) -> Command {
        let mut command = Command::new("bash");
        command.args(["-c", shell, "bash"]);
        command.args(["timeout", "--signal=KILL", TIME_LIMIT]);
        command.arg(&self.path).args(arguments);
        command.stdin(Stdio::null()).stderr(Stdio::piped());
        command
    }

    /// Its end where it tells this, and nothing else.
    pub fn telling(&self, problem: &str) -> End {
        End {
            said: format!("{}: {problem}\n", self.name),
            code: Some(self.code),
        }
    }

    /// With these arguments it writes this log, and says nothing.
    pub fn assert_writes(&self, arguments: &[impl AsRef<OsStr> + Debug], log: &[u8]) {
        let run = format!("{} {arguments:?}", self.name);
        let output = self.command(arguments).output().unwrap();
        assert_eq!(End::of(&output), End::well(), "{run}");
        assert!(output.stdout == log, "{run}: the bytes differ");
    }
}

/// How a program ended: what it said on standard error, and its exit code, none
/// where a signal ended it.
#[derive(Debug, PartialEq)]
pub struct End {
    said: String,
    code: Option<i32>,
}

impl End {
    pub fn of(output: &Output) -> End {
        End {
            said: String::from_utf8_lossy(&output.stderr).into_owned(),
            code: output.status.code(),
        }
    }

    /// The end of a program that has nothing to tell.
    pub fn well() -> End {
        End {
            said: String::new(),
            code: Some(0),
        }
    }
}
