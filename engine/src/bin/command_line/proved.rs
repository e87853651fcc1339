//! The proved programs, each built before it is used where it is missing or
//! its sources have changed since.

use crate::failure::Failure;
use std::collections::{BTreeSet, HashMap};
use std::fs::{self, File};
use std::io::{self, BufRead, BufReader, ErrorKind, Write};
use std::path::{Path, PathBuf};
use std::process::{Command, Stdio};
use std::time::SystemTime;

/// The crate of the program that prints a run.
pub const REPLAY: &str = "replay";

/// The crate of the program that writes the log of a made-up pass.
pub const MADE_UP: &str = "made_up";

/// The kit runs what it has built: a run of nothing, and a pass of no records.
const OF_NOTHING: [&str; 2] = ["1", "0"];

/// The folders of a crate that are read as it is built. Beside them the kit
/// puts what it makes, in `out`.
const READ: [&str; 3] = ["src", "specs", "proofs"];

/// At most this many lines are shown of what went wrong.
const SHOWN_OF_A_FAILURE: usize = 40;

/// Where the program of a crate is, after it was built if need be. Two that
/// want to build do so one after the other.
pub fn proved_program(root: &Path, name: &str) -> Result<PathBuf, Failure> {
    let program = program_of(root, name);
    if is_fresh(root, name) {
        return Ok(program);
    }
    let target = root.join("target");
    let unwritable =
        |error| Failure::Told(format!("{} cannot be written: {error}", target.display()));
    let lock = fs::create_dir_all(&target)
        .and_then(|()| File::create(target.join("lock")))
        .and_then(|lock| lock.lock().map(|()| lock))
        .map_err(unwritable)?;
    if !is_fresh(root, name) {
        // The time of this file is that of the build's begin.
        let begun = target.join("begun");
        fs::write(&begun, name).map_err(unwritable)?;
        build(root, name)?;
        fs::rename(&begun, stamp_of(root, name)).map_err(unwritable)?;
    }
    drop(lock);
    Ok(program)
}

/// Where the kit puts the program of a crate.
fn program_of(root: &Path, name: &str) -> PathBuf {
    root.join("crates").join(name).join("out").join(name)
}

/// The file whose time is that of a program's last build.
fn stamp_of(root: &Path, name: &str) -> PathBuf {
    root.join("target").join(format!("built-{name}"))
}

/// Whether a program is there and was built after the last change of what it
/// is made of.
fn is_fresh(root: &Path, name: &str) -> bool {
    let Ok(since) = modified(&stamp_of(root, name)) else {
        return false;
    };
    program_of(root, name).is_file()
        && crates_of(root, name).is_some_and(|crates| {
            let folders = crates.iter().map(|name| root.join("crates").join(name));
            let mut sources = folders.flat_map(|folder| READ.map(|part| folder.join(part)));
            !is_newer(&root.join("crates.txt"), since)
                && !sources.any(|source| is_newer(&source, since))
        })
}

/// A crate and all crates below it, as crates.txt has them.
fn crates_of(root: &Path, program: &str) -> Option<BTreeSet<String>> {
    let list = fs::read_to_string(root.join("crates.txt")).ok()?;
    let below: HashMap<&str, &str> = list
        .lines()
        .filter_map(|line| line.split_once(':'))
        .collect();
    let mut found = BTreeSet::new();
    let mut sought = vec![program];
    while let Some(name) = sought.pop() {
        // The kit's own libraries have no line.
        if let Some(uses) = below.get(name) {
            if found.insert(name.to_owned()) {
                sought.extend(uses.split_whitespace());
            }
        }
    }
    Some(found)
}

/// Whether a file, or anything in a folder, changed after a moment.
fn is_newer(path: &Path, since: SystemTime) -> bool {
    let entries = fs::read_dir(path).into_iter().flatten().flatten();
    modified(path).is_ok_and(|changed| changed > since)
        || entries
            .map(|entry| entry.path())
            .any(|path| is_newer(&path, since))
}

fn modified(path: &Path) -> io::Result<SystemTime> {
    fs::metadata(path)?.modified()
}

/// Builds a program. Its progress is a line of the crates that are proved. What
/// the kit says comes on standard error, and what the program prints is left.
fn build(root: &Path, name: &str) -> Result<(), Failure> {
    let mut rt = Command::new("rt")
        .args(["run", "--"])
        .args(OF_NOTHING)
        .current_dir(root.join("crates").join(name))
        .stdin(Stdio::null())
        .stdout(Stdio::null())
        .stderr(Stdio::piped())
        .spawn()
        .map_err(|error| match error.kind() {
            ErrorKind::NotFound => Failure::Told(NO_KIT.to_owned()),
            _ => Failure::Told(format!("rt cannot be run: {error}")),
        })?;
    let said = BufReader::new(rt.stderr.take().expect("standard error is piped"));
    let mut progress = Progress::default();
    for line in said.lines().map_while(Result::ok) {
        progress.heard(&line);
    }
    let proved = rt.wait().is_ok_and(|status| status.success());
    progress.end(proved)
}

const NO_KIT: &str = "rt is not installed: the program is built with the kit of Rattle, see README.md, Prerequisites";

/// What the build says, in short: the crates that it proves, and where it
/// fails the first lines that speak of something else.
#[derive(Default)]
struct Progress {
    began: bool,
    checked: String,
    wrong: Vec<String>,
}

impl Progress {
    fn heard(&mut self, line: &str) {
        let checked = line
            .strip_prefix("crate ")
            .and_then(|said| said.split_once(": modules loaded="));
        if let Some((name, _)) = checked {
            self.checked = name.to_owned();
        } else if line.starts_with("logic=proved ") {
            self.add();
        } else if self.wrong.len() < SHOWN_OF_A_FAILURE && !goes_well(line) {
            self.wrong.push(line.to_owned());
        }
    }

    /// The crate that was checked last is proved.
    fn add(&mut self) {
        if !self.began {
            say("building the program, some minutes where all is new; proved:");
            self.began = true;
        }
        say(&format!(" {}", self.checked));
    }

    fn end(self, proved: bool) -> Result<(), Failure> {
        if self.began {
            say("\n");
        }
        if proved {
            return Ok(());
        }
        let wrong = self.wrong.join("\n");
        Err(Failure::Told(format!(
            "the program cannot be built:\n{wrong}"
        )))
    }
}

/// Whether a line of the kit says of a function, a library or the proof as a
/// whole that all is well.
fn goes_well(line: &str) -> bool {
    let beginnings = [
        "library ",
        "statements ",
        "logic /",
        "only=",
        "linked ",
        "axioms ",
        "rt: chose ",
        "rt: running ",
    ];
    // What another copy of the repository has proved of the same is used here.
    let shared = [
        ": begins with what a check kept in ",
        ": another copy of the repository is building this library",
    ];
    line.ends_with(": proved")
        || beginnings.iter().any(|first| line.starts_with(first))
        || shared.iter().any(|part| line.contains(part))
}

fn say(text: &str) {
    let _ = io::stderr().write_all(text.as_bytes());
}
