//! `./run --made`: a made-up pass is replayed, or printed as a text log. Where
//! the two proved programs are there they are held together; scripts in their
//! places show what else a generator could do.

use crate::feigned_program::root_with;
use crate::made_up_program::MADE_UP;
use crate::script::{end_of, shell_making_passes, End};
use engine::text::encode;
use std::process::Command;

/// How a request ended, of programs that are these lines of shell.
fn asked(name: &str, programs: &[(&str, &str)], arguments: &[&str]) -> End {
    let root = root_with(&format!("made-{name}"), programs);
    let mut command = Command::new(env!("CARGO_BIN_EXE_command-line"));
    end_of(command.arg(&*root).args(arguments))
}

fn ended(status: i32, printed: &str, said: &str) -> End {
    End {
        status: Some(status),
        printed: printed.to_owned(),
        said: said.to_owned(),
    }
}

/// Neither a seed nor a count has a sign, or anything but digits; each has its
/// highest. The usage comes before anything is built.
#[test]
fn wrong_numbers_get_the_usage() {
    let usage = asked("usage", &[], &["--help"]).printed;
    let seed = "is no seed: seeds are decimal numbers up to 4294967295";
    let count = "is no count: counts are decimal numbers up to 18446744073709551615";
    for (numbers, word, problem) in [
        (["", "12"], "", seed),
        (["x", "12"], "x", seed),
        (["0x7", "12"], "0x7", seed),
        (["+7", "12"], "+7", seed),
        (["-7", "12"], "-7", seed),
        (["7.0", "12"], "7.0", seed),
        (["4294967296", "12"], "4294967296", seed),
        (["7", ""], "", count),
        (["7", " 12"], " 12", count),
        (["7", "-1"], "-1", count),
        (["7", "--text"], "--text", count),
        (["7", "18446744073709551616"], "18446744073709551616", count),
    ] {
        let told = ended(2, "", &format!("'{word}' {problem}\n{usage}"));
        let [seed, count] = numbers;
        for arguments in [
            &["--made", seed, count][..],
            &["--made", seed, count, "--text"],
        ] {
            assert_eq!(asked("usage", &[], arguments), told, "{arguments:?}");
        }
    }
}

/// In the place of the program that prints a run: it shows the log.
const SHOWS: &str = "od -An -tx1; echo end";

/// The run, and the text, of a pass that these lines of shell write.
fn run_and_text(name: &str, made_up: &str, [seed, count]: [&str; 2]) -> [End; 2] {
    let programs = [("made_up", made_up), ("replay", SHOWS)];
    [
        asked(name, &programs, &["--made", seed, count]),
        asked(name, &programs, &["--made", seed, count, "--text"]),
    ]
}

const ANY: [&str; 2] = ["1", "2"];

#[test]
fn the_generator_gets_the_numbers_as_they_are_read() {
    for (numbers, told) in [
        (["007", "0012"], "7 12\n"),
        (["0", "0"], "0 0\n"),
        (
            ["4294967295", "18446744073709551615"],
            "4294967295 18446744073709551615\n",
        ),
    ] {
        let ends = run_and_text("numbers", "echo \"$@\" >&2", numbers);
        assert_eq!(ends, [ended(1, "", told), ended(1, "", told)]);
    }
}

#[test]
fn a_pass_is_handed_on_and_told_as_text() {
    let start_and_send = "printf '\\001\\017\\007\\004\\000\\001\\364\\001\\000\\000'";
    let run = " 01 0f 07 04 00 01 f4 01 00 00\nend\n";
    let text = "start 15 7\nsend 0 1 500\n";
    let expected = [ended(0, run, ""), ended(0, text, "")];
    assert_eq!(run_and_text("whole", start_and_send, ANY), expected);
    let expected = [ended(0, "end\n", ""), ended(0, "", "")];
    assert_eq!(run_and_text("empty", "true", ANY), expected);
}

/// Not even `end` is printed: no run is begun.
#[test]
fn a_refused_pass_prints_nothing() {
    let said = "made_up: refused with 26: the seed is zero\n";
    let refuses = format!("printf '{said}' >&2");
    let expected = [ended(1, "", said), ended(1, "", said)];
    assert_eq!(run_and_text("refused", &refuses, ANY), expected);
}

#[test]
fn a_pass_that_is_not_whole_ends_with_1() {
    const CUT_OFF: &str = "the generator stopped before the pass's end:";
    let (run, text) = (" 01 00 00\nend\n", "start 0 0\n");
    for (last, said) in [
        ("kill -9 $$", format!("{CUT_OFF} signal: 9 (SIGKILL)\n")),
        ("exit 3", format!("{CUT_OFF} exit status: 3\n")),
        ("echo broken >&2", "broken\n".to_owned()),
    ] {
        let expected = [ended(1, run, &said), ended(1, text, &said)];
        let begun = format!("printf '\\001\\000\\000'; {last}");
        assert_eq!(run_and_text("cut-off", &begun, ANY), expected);
        let expected = [ended(1, "", &said), ended(1, "", &said)];
        assert_eq!(run_and_text("cut-off", last, ANY), expected);
    }
}

/// In a run such a record has a line with 2 or 3.
#[test]
fn what_is_no_record_has_no_text() {
    for (record, said) in [
        ("\\015", "a byte that is no record kind"),
        ("\\004\\000", "failed to fill whole buffer"),
    ] {
        let begun = format!("printf '\\001\\000\\000{record}'");
        let [_, text] = run_and_text("spoiled", &begun, ANY);
        let said = format!("the log cannot be read to its end: {said}\n");
        assert_eq!(text, ended(1, "start 0 0\n", &said));
    }
}

#[test]
fn a_run_is_that_of_the_two_programs() {
    let both = "crates/made_up/out/made_up 1 2000 | crates/replay/out/replay";
    let Some(run) = shell_making_passes(both) else {
        return;
    };
    assert!(run.printed.lines().count() > 2_000);
    for line in [
        "./run --made 1 2000",
        "./run --made 1 2000 --text | ./run --text -",
    ] {
        let end = shell_making_passes(line).unwrap();
        assert_eq!(end, ended(0, &run.printed, ""), "{line}");
    }
}

#[test]
fn a_text_has_the_records_of_its_pass() {
    let Some(text) = shell_making_passes("./run --made 1 2000 --text") else {
        return;
    };
    assert_eq!((text.status, &text.said[..]), (Some(0), ""));
    assert_eq!(text.printed.lines().count(), 2_000);
    let written = Command::new(MADE_UP).args(["1", "2000"]).output().unwrap();
    assert!(encode(&text.printed).unwrap() == written.stdout);
}

#[test]
fn an_empty_pass_and_a_refused_one_have_no_records() {
    const REFUSED: &str = "made_up: refused with 26: the seed is zero\n";
    for (line, expected) in [
        ("./run --made 5 0", ended(0, "end\n", "")),
        ("./run --made 5 0 --text", ended(0, "", "")),
        ("./run --made 0 5", ended(1, "", REFUSED)),
        ("./run --made 0 5 --text", ended(1, "", REFUSED)),
        ("./run --made 0 0", ended(1, "", REFUSED)),
    ] {
        let Some(end) = shell_making_passes(line) else {
            return;
        };
        assert_eq!(end, expected, "{line}");
    }
}
