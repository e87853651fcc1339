//! What is built before a run, with a kit that only feigns proofs: it notes
//! each call, says what the kit says, and puts a program where it is looked
//! for. What it puts for `replay` says that it ran, and any other is silent.

use crate::feigned_program::{put_program, root_with, Folder};
use crate::script::{end_of, End};
use std::fs;
use std::path::Path;
use std::process::Command;

/// The crate `base` is below that of `replay` by way of another, and not below
/// that of `made_up`.
const CRATES: &str = "\
# The crates.
base:
lines: base
replay: lines io
generator:
made_up: generator io
other: base
";

/// A repository of some crates below the programs', and the feigned kit. Its
/// sources have no endings: the kit itself, which looks for sources in all
/// folders, would miss them in the list of crates.
struct Repository {
    folder: Folder,
}

/// It is called in the folder of a program's crate, says all on standard error,
/// leaves something in each crate that it checks, and runs what it has built.
const KIT: &str = r#"#!/bin/sh
name=$(basename "$PWD")
echo "$@, in $name" >>../../calls
if [ -e ../../broken ]; then
    cat ../../broken >&2
    exit 1
fi
for checked in base "$name"; do
    mkdir -p "../$checked/out"
    echo "rt: chose --jobs 2 for $checked"
    for line in 1 2 3 4 5 6 7 8 9; do echo "fn $checked::f$line: proved"; done
    echo "crate $checked: modules loaded=0 checked=40"
    echo "logic=proved functions=9 statements=trusted"
done >&2
echo '#!/bin/sh' >"out/$name"
if [ "$name" = replay ]; then echo 'echo ran' >>"out/$name"; fi
chmod +x "out/$name"
echo "rt: running out/$name; to give it other input, run that file yourself" >&2
"out/$name"
"#;

impl Repository {
    fn new(name: &str) -> Repository {
        let folder = root_with(name, &[]);
        for part in [
            "kit",
            "crates/base/specs",
            "crates/made_up/src",
            "crates/replay/src",
            "crates/generator/src",
        ] {
            fs::create_dir_all(folder.join(part)).unwrap();
        }
        let repository = Repository { folder };
        repository.write("crates.txt", CRATES);
        repository.write("crates/base/specs/Lib", "");
        repository.write("crates/replay/src/main", "");
        repository.write("crates/replay/stdin", "");
        put_program(&repository.folder.join("kit/rt"), KIT);
        repository
    }

    fn write(&self, file: &str, text: &str) {
        fs::write(self.folder.join(file), text).unwrap();
    }

    fn run(&self, path: &Path, arguments: &[&str]) -> End {
        let mut command = Command::new(env!("CARGO_BIN_EXE_command-line"));
        let others = "/usr/bin:/bin";
        command.env("PATH", format!("{}:{others}", path.display()));
        end_of(command.arg(&*self.folder).args(arguments))
    }

    fn with_kit(&self) -> End {
        self.asked(&[])
    }

    fn asked(&self, arguments: &[&str]) -> End {
        self.run(&self.folder.join("kit"), arguments)
    }

    /// What the kit was called with, a line for each call.
    fn called(&self) -> String {
        fs::read_to_string(self.folder.join("calls")).unwrap_or_default()
    }

    /// How often the kit was called.
    fn calls(&self) -> usize {
        self.called().lines().count()
    }
}

fn ran(said: &str) -> End {
    End {
        status: Some(0),
        printed: "ran\n".to_owned(),
        said: said.to_owned(),
    }
}

/// How the kit is called for the program, and what is said of it.
const CALLED: &str = "run -- 1 0, in replay\n";
const BUILT: &str = "building the program, some minutes where all is new; proved: base replay\n";

#[test]
fn the_program_is_built_once() {
    let repository = Repository::new("built-once");
    assert_eq!(repository.with_kit(), ran(BUILT));
    for _ in 0..3 {
        assert_eq!(repository.with_kit(), ran(""));
    }
    assert_eq!(repository.called(), CALLED);
}

/// A text of a made-up pass needs the generator alone, and its replay both.
#[test]
fn only_what_a_request_needs_is_built() {
    let repository = Repository::new("needed");
    let (replayed, text) = (["--made", "1", "2"], ["--made", "1", "2", "--text"]);
    let [built, made] = [BUILT, CALLED].map(|said| said.replace("replay", "made_up"));
    let nothing = |said: &str| End {
        printed: String::new(),
        ..ran(said)
    };
    assert_eq!(repository.asked(&text), nothing(&built));
    assert_eq!(repository.called(), made);
    assert_eq!(repository.asked(&replayed), ran(BUILT));
    assert_eq!(repository.called(), format!("{made}{CALLED}"));
    repository.write("crates/generator/src/lib", "");
    assert_eq!(repository.with_kit(), ran(""));
    assert_eq!(repository.asked(&replayed), ran(&built));
    repository.write("crates/base/specs/Lib", "");
    assert_eq!(repository.asked(&text), nothing(""));
    assert_eq!(repository.asked(&replayed), ran(BUILT));
    assert_eq!(repository.calls(), 4);
}

#[test]
fn a_change_of_the_sources_builds_anew() {
    let repository = Repository::new("changed");
    repository.with_kit();
    for (calls, file) in [
        (2, "crates/replay/src/main"),
        (3, "crates/base/specs/Lib"),
        (4, "crates/base/specs/New"),
        (5, "crates.txt"),
    ] {
        repository.write(file, CRATES);
        assert_eq!(repository.with_kit(), ran(BUILT), "{file}");
        assert_eq!(repository.calls(), calls, "{file}");
    }
    fs::remove_file(repository.folder.join("crates/base/specs/New")).unwrap();
    assert_eq!(repository.with_kit(), ran(BUILT));
    fs::remove_file(repository.folder.join("crates/replay/out/replay")).unwrap();
    assert_eq!(repository.with_kit(), ran(BUILT));
    assert_eq!(repository.calls(), 7);
}

#[test]
fn a_change_elsewhere_builds_nothing() {
    let repository = Repository::new("elsewhere");
    repository.with_kit();
    fs::create_dir_all(repository.folder.join("crates/other/src")).unwrap();
    repository.write("crates/other/src/main", "");
    repository.write("README.md", "");
    assert_eq!(repository.with_kit(), ran(""));
}

/// What the kit says of a failure, and what is shown of it.
const FAILURE: &str = "\
rt: page: another copy of the repository is building this library; waiting for it
rt: page: begins with what a check kept in /other/crates/page
rt: chose --jobs 2 for page
fn page::put: proved
statements std: modules loaded=5 checked=0
library base: modules loaded=1 checked=0
crate page: modules loaded=0 checked=40
logic=proved functions=1
rt: chose --jobs 2 for lines
src/lib.rt:1: error
fn lines::put: not proved
statements std: modules loaded=5 checked=0
crate lines: modules loaded=28 checked=12
logic=not-proved
only=0 proved=0
rt: the library lines did not build, so nothing above it was checked
";
const SHOWN: &str = "\
building the program, some minutes where all is new; proved: page
the program cannot be built:
src/lib.rt:1: error
fn lines::put: not proved
logic=not-proved
rt: the library lines did not build, so nothing above it was checked
";

#[test]
fn a_failed_build_is_told_and_tried_again() {
    let repository = Repository::new("failed");
    repository.write("broken", FAILURE);
    for calls in [1, 2] {
        let end = repository.with_kit();
        assert_eq!(
            (end.status, &end.printed[..], &end.said[..]),
            (Some(1), "", SHOWN)
        );
        assert_eq!(repository.calls(), calls);
    }
    fs::remove_file(repository.folder.join("broken")).unwrap();
    assert_eq!(repository.with_kit(), ran(BUILT));
}

/// The first forty lines are shown: the first error is the one to mend.
#[test]
fn a_long_failure_is_cut() {
    let repository = Repository::new("failed-at-length");
    let errors: Vec<String> = (1..100).map(|line| format!("x.rt:{line}: error")).collect();
    repository.write("broken", &errors.join("\n"));
    let end = repository.with_kit();
    let shown = errors[..40].join("\n");
    let said = format!("the program cannot be built:\n{shown}\n");
    assert_eq!((end.status, end.said), (Some(1), said));
}

#[test]
fn a_missing_kit_is_named() {
    let repository = Repository::new("no-kit");
    let end = repository.run(Path::new("/nowhere"), &[]);
    assert_eq!((end.status, &end.printed[..]), (Some(1), ""));
    assert!(
        end.said.starts_with("rt is not installed: "),
        "{}",
        end.said
    );
}
