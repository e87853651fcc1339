//! A proved program whose lines the second engine does not give is not drawn.
//! A script feigns such a program.

use crate::drawing::{end_of, file_with, End};
use crate::feigned_program::root_with;
use engine::text::encode;
use std::process::Command;

const TEXT: &str = "start 0 0\nstart 1 1\nstart 2 0\ncall 0 1\nroute 0 1\ncall 2 1\nroute 2 1\n\
    send 2 1 6\nsend 0 1 5\nlook 1\n";

const RUN: &str = "\
0 01 0 0 1 0
3 01 0 1 1 0
6 01 0 0 2 0
9 02 0 1 1 0
12 03 0 0 1 1
15 02 0 1 1 0
18 03 0 0 1 1
21 04 0 1 0 0
28 04 0 1 0 0
35 0C 0 2 0 0
pair 0 1 0 0 0 1
pair 2 1 0 0 0 1
end
";

/// How it ended with a program that prints this of any log, in a repository of
/// this name.
fn drawn_as(repository: &str, printed: &str) -> End {
    let program = format!("cat >/dev/null\ncat <<'END'\n{printed}END");
    let root = root_with(repository, &[("replay", &program)]);
    let log = file_with(&format!("{repository}.log"), &encode(TEXT).unwrap());
    let mut command = Command::new(env!("CARGO_BIN_EXE_command-line"));
    end_of(command.arg(&*root).args(["--picture", &log]))
}

#[test]
fn only_the_proved_run_is_drawn() {
    drawn_as("pictures-other", RUN).picture();
    for (line, other) in [
        ("3 01 0 1 1 0", "3 01 0 1 2 0"),
        ("3 01 0 1 1 0", "3 01 8 0 0 0"),
        ("21 04 0 1 0 0", "21 04 0 2 0 0"),
        ("35 0C 0 2 0 0", "35 0C 0 0 0 0"),
        ("35 0C 0 2 0 0", "35 0C 0 1 0 0"),
        ("35 0C 0 2 0 0", "35 0C 22 0 0 0"),
        ("pair 0 1 0 0 0 1", "pair 0 1 0 0 1 0"),
        ("pair 0 1 0 0 0 1", "pair 0 2 0 0 0 1"),
        ("pair 0 1 0 0 0 1", "pair 0 16 0 0 0 1"),
    ] {
        let end = drawn_as("pictures-other", &RUN.replace(line, other));
        assert_eq!((end.status, &end.printed[..]), (Some(1), ""), "{other}");
        let told = "nothing is drawn: the second engine differs from the proved program at '";
        let at = end
            .said
            .strip_prefix(told)
            .unwrap_or_else(|| panic!("{}", end.said));
        assert_eq!(at, format!("{other}'\n"));
    }
}

#[test]
fn a_run_without_its_lines_is_not_drawn() {
    for (printed, told) in [
        (
            RUN.replace("pair 0 1 0 0 0 1\n", ""),
            "nothing is drawn: the second engine differs",
        ),
        (
            RUN.replace("end\n", ""),
            "nothing is drawn: the program stopped before the run's end",
        ),
        (
            String::new(),
            "nothing is drawn: the program stopped before the run's end",
        ),
        (
            RUN.replace("3 01", "4 01"),
            "the program printed what does not fit the log",
        ),
    ] {
        let end = drawn_as("pictures-missing", &printed);
        assert_eq!((end.status, &end.printed[..]), (Some(1), ""), "{told}");
        assert!(end.said.starts_with(told), "{}", end.said);
    }
}
