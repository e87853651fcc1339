//! Blocks of kind `console`: their commands are run, and print what is shown.

use crate::document::{Block, ROOT};
use std::fs;
use std::os::unix::fs::PermissionsExt;
use std::path::Path;
use std::process::{Command, Stdio};

const PROMPT: &str = "$ ";

/// The gate, which runs these tests itself.
const GATE: &str = ".ci/run";

/// How a command looks that proves a crate, in that crate's folder. It takes
/// minutes where nothing is kept, and the gate, which fails at a crate that is
/// not proved, has just done it: so of such a crate it says `PROVED`.
const FOLDER: &str = "cd crates/";
const PROVES: &str = " && rt check | tail -n 1 | grep -o '^logic=[a-z-]*'";
const PROVED: &str = "logic=proved\n";

/// The benchmark, which takes minutes and prints what it measures; `performance`
/// makes a small run of it.
const BENCHMARK: &str = "cd engine && cargo run --release --offline --bin bench";

/// A command with the output that is shown for it.
#[derive(Debug, PartialEq)]
pub struct Shown {
    pub line: usize,
    pub command: String,
    pub output: String,
}

/// The commands of a block.
pub fn shown_in(block: &Block) -> Result<Vec<Shown>, String> {
    let mut commands: Vec<Shown> = Vec::new();
    for (line, content) in (block.line + 1..).zip(block.content.lines()) {
        if let Some(command) = content.strip_prefix(PROMPT) {
            commands.push(Shown {
                line,
                command: command.to_owned(),
                output: String::new(),
            });
        } else {
            let last = commands.last_mut();
            let last = last.ok_or("a console block begins with '$ COMMAND'")?;
            last.output += content;
            last.output.push('\n');
        }
    }
    if commands.is_empty() {
        return Err("a console block shows a command".to_owned());
    }
    Ok(commands)
}

/// Whether a command prints what is shown for it. Two that can't be run here
/// are there, and nothing is shown for them; one that proves a crate names one
/// that the gate proves.
pub fn check(shown: &Shown) -> Result<(), String> {
    let printed = match &shown.command[..] {
        GATE => is_executable(GATE).map(|()| String::new())?,
        BENCHMARK => String::new(),
        command => match proved_by(command) {
            Some(name) => is_listed(name).map(|()| PROVED.to_owned())?,
            None => printed_by(command)?,
        },
    };
    if printed == shown.output {
        return Ok(());
    }
    Err(format!(
        "'{}' prints\n{printed}and what is shown is\n{}",
        shown.command, shown.output
    ))
}

/// The crate that a command proves, if it does nothing else.
fn proved_by(command: &str) -> Option<&str> {
    command.strip_prefix(FOLDER)?.strip_suffix(PROVES)
}

/// Whether the gate proves a crate of this name.
fn is_listed(name: &str) -> Result<(), String> {
    let crates = fs::read_to_string(Path::new(ROOT).join("crates.txt"));
    let crates = crates.map_err(|error| format!("crates.txt: {error}"))?;
    let listed = crates
        .lines()
        .filter_map(|line| line.split_once(':'))
        .any(|(listed, _)| listed == name);
    listed
        .then_some(())
        .ok_or(format!("crates.txt lists no crate '{name}'"))
}

/// What a command prints, in the form in which it is shown.
fn printed_by(command: &str) -> Result<String, String> {
    let output = Command::new("bash")
        .args(["-c", command])
        .current_dir(ROOT)
        .env("LC_ALL", "C")
        .stdin(Stdio::null())
        .output()
        .map_err(|error| format!("cannot run '{command}': {error}"))?;
    let mut printed = output.stdout;
    if !output.status.success() {
        printed.extend(output.stderr);
        let code = output.status.code().map_or(-1, i64::from);
        printed.extend(format!("[exit status {code}]\n").bytes());
    }
    String::from_utf8(printed).map_err(|_| format!("'{command}' prints what is no text"))
}

fn is_executable(name: &str) -> Result<(), String> {
    let found = fs::metadata(Path::new(ROOT).join(name));
    let executable =
        |found: fs::Metadata| found.is_file() && found.permissions().mode() & 0o100 != 0;
    if found.is_ok_and(executable) {
        Ok(())
    } else {
        Err(format!("{name} is no program"))
    }
}

mod tests {
    use super::{check, is_executable, shown_in, Shown};
    use crate::document::Block;

    fn block(content: &str) -> Block {
        Block {
            line: 10,
            kind: "console".to_owned(),
            content: content.to_owned(),
        }
    }

    fn first(content: &str) -> Shown {
        shown_in(&block(content)).unwrap().remove(0)
    }

    #[test]
    fn commands_are_read_with_their_output() {
        let shown = shown_in(&block("$ a b\nc\n\nd\n$ e\n")).unwrap();
        let parts: Vec<_> = shown
            .iter()
            .map(|shown| (shown.line, &shown.command[..], &shown.output[..]))
            .collect();
        assert_eq!(parts, [(11, "a b", "c\n\nd\n"), (15, "e", "")]);
        assert!(shown_in(&block("")).is_err());
        assert!(shown_in(&block("output\n$ a\n")).is_err());
    }

    #[test]
    fn what_is_printed_passes() {
        for content in [
            "$ printf 'a\\nb\\n'\na\nb\n",
            "$ true\n",
            "$ echo progress >&2; echo done\ndone\n",
            "$ echo a; echo b >&2; exit 3\na\nb\n[exit status 3]\n",
            "$ head -n 1 README.md | cut -c 1\n#\n",
            "$ .ci/run\n",
            "$ cd crates/steps && rt check | tail -n 1 | grep -o '^logic=[a-z-]*'\nlogic=proved\n",
        ] {
            assert_eq!(check(&first(content)), Ok(()));
        }
    }

    #[test]
    fn anything_else_fails() {
        for content in [
            "$ printf 'a\\n'\nb\n",
            "$ printf 'a\\n'\n",
            "$ printf 'a\\n'\na\na\n",
            "$ printf a\na\n",
            "$ true\na\n",
            "$ false\n",
            "$ true\n[exit status 1]\n",
            "$ exit 3\n[exit status 1]\n",
            "$ echo b >&2\nb\n",
            "$ .ci/run\n100 passed, 0 failed\n",
            "$ cd crates/steps && rt check | tail -n 1 | grep -o '^logic=[a-z-]*'\n",
            "$ cd crates/none && rt check | tail -n 1 | grep -o '^logic=[a-z-]*'\nlogic=proved\n",
        ] {
            assert!(check(&first(content)).is_err(), "{content}");
        }
        assert!(is_executable(".ci/none").is_err());
        assert!(is_executable("README.md").is_err());
    }
}
