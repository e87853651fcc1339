//! The program, called for a picture.

use crate::proved_program::{program_at, USUAL_PLACE};
use std::fs;
use std::path::PathBuf;
use std::process::{Command, Stdio};

pub const ROOT: &str = concat!(env!("CARGO_MANIFEST_DIR"), "/..");

/// How a call ended: its status, what it printed and what it said.
#[derive(Debug, PartialEq)]
pub struct End {
    pub status: Option<i32>,
    pub printed: String,
    pub said: String,
}

impl End {
    /// The picture of a call that went well.
    pub fn picture(self) -> String {
        assert_eq!((self.status, &self.said[..]), (Some(0), ""));
        self.printed
    }
}

/// The program with `--picture` and these arguments; none where there is no
/// proved program to run.
pub fn command(arguments: &[&str]) -> Option<Command> {
    program_at(USUAL_PLACE)?;
    let mut command = Command::new(env!("CARGO_BIN_EXE_command-line"));
    command.args([ROOT, "--picture"]).args(arguments);
    command.stdin(Stdio::null());
    Some(command)
}

pub fn end_of(command: &mut Command) -> End {
    let output = command.output().unwrap();
    let text = |bytes| String::from_utf8(bytes).unwrap();
    End {
        status: output.status.code(),
        printed: text(output.stdout),
        said: text(output.stderr),
    }
}

/// How a call with these arguments ended.
pub fn draw(arguments: &[&str]) -> Option<End> {
    command(arguments).map(|mut command| end_of(&mut command))
}

/// The names of the examples, in order.
pub fn examples() -> Vec<String> {
    let names = names_in("examples");
    let texts = names.iter().filter_map(|name| name.strip_suffix(".txt"));
    texts.map(str::to_owned).collect()
}

/// What a folder below the root holds, in order.
pub fn names_in(folder: &str) -> Vec<String> {
    let entries = fs::read_dir(format!("{ROOT}/{folder}")).unwrap();
    let name = |entry: fs::DirEntry| entry.file_name().into_string().unwrap();
    let mut names: Vec<String> = entries.map(|entry| name(entry.unwrap())).collect();
    names.sort();
    names
}

/// The file of an example.
pub fn example(name: &str) -> String {
    format!("{ROOT}/examples/{name}.txt")
}

/// A file of these bytes, for a test alone.
pub fn file_with(name: &str, bytes: &[u8]) -> String {
    let path = PathBuf::from(env!("CARGO_TARGET_TMPDIR")).join(format!("pictures-{name}"));
    fs::write(&path, bytes).unwrap();
    path.display().to_string()
}
