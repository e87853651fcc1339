//! The script, called with some arguments and an input.

use crate::made_up_program::MADE_UP;
use crate::proved_program::{program_at, USUAL_PLACE};
use crate::release_programs::build_release;
use std::fs;
use std::path::PathBuf;
use std::process::{Command, Stdio};

pub const ROOT: &str = concat!(env!("CARGO_MANIFEST_DIR"), "/..");

/// How a command ended: its status, what it printed and what it said.
#[derive(Debug, PartialEq)]
pub struct End {
    pub status: Option<i32>,
    pub printed: String,
    pub said: String,
}

/// How a command ended.
pub fn end_of(command: &mut Command) -> End {
    let output = command.stdin(Stdio::null()).output().unwrap();
    let text = |bytes| String::from_utf8(bytes).unwrap();
    End {
        status: output.status.code(),
        printed: text(output.stdout),
        said: text(output.stderr),
    }
}

/// How a line of shell in the repository's root ended; none where there is no
/// proved program to run.
pub fn shell(line: &str) -> Option<End> {
    program_at(USUAL_PLACE)?;
    build_release(&[]);
    Some(end_of_line(line))
}

/// The same for a line that needs the generator too.
pub fn shell_making_passes(line: &str) -> Option<End> {
    program_at(USUAL_PLACE)?;
    program_at(MADE_UP)?;
    build_release(&["--made", "1", "0"]);
    Some(end_of_line(line))
}

fn end_of_line(line: &str) -> End {
    let mut command = Command::new("bash");
    end_of(command.args(["-c", line]).current_dir(ROOT))
}

/// A file of these bytes, for a test alone.
pub fn file_with(name: &str, bytes: &[u8]) -> PathBuf {
    let path = PathBuf::from(env!("CARGO_TARGET_TMPDIR")).join(name);
    fs::write(&path, bytes).unwrap();
    path
}

/// What the example of this name prints.
pub fn run_of(example: &str) -> String {
    fs::read_to_string(format!("{ROOT}/examples/{example}.run")).unwrap()
}
