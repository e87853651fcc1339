//! The program `bench` on small inputs: its tables, that it fails where the
//! outputs differ, and that it leaves nothing behind.

#[path = "../shared/feigned_program.rs"]
mod feigned_program;
#[path = "../shared/made_up_program.rs"]
mod made_up_program;
#[path = "../shared/proved_program.rs"]
mod proved_program;
#[path = "../shared/timing_program.rs"]
mod timing_program;

use feigned_program::{place_in, root_with, Folder};
use made_up_program::MADE_UP;
use proved_program::{program_at, USUAL_PLACE};
use std::ffi::OsStr;
use std::fs;
use std::ops::RangeInclusive;
use std::path::PathBuf;
use std::process::{Command, Output};
use timing_program::TIMING;

const ENGINE: &str = env!("CARGO_BIN_EXE_engine-replay");
const RUST_MADE_UP: &str = env!("CARGO_BIN_EXE_made-up");

/// The programs to measure where a test asks for no other, by their options:
/// Rust ones, also in the place of those that are proved.
const PROGRAMS: [(&str, &str); 5] = [
    ("--replay", ENGINE),
    ("--engine-replay", ENGINE),
    ("--made-up", RUST_MADE_UP),
    ("--engine-made-up", RUST_MADE_UP),
    ("--timing", ENGINE),
];

/// How many records are asked for.
const RECORDS: f64 = 20_000.0;

/// Runs the program with these programs to measure, and the others of
/// `PROGRAMS`: of two for one option the later counts. Its temporary folder has
/// this name, and must be empty afterwards.
fn bench(name: &str, programs: &[(&str, impl AsRef<OsStr>)]) -> Output {
    let folder = format!("{}/{name}", env!("CARGO_TARGET_TMPDIR"));
    fs::create_dir_all(&folder).unwrap();
    let mut command = Command::new(env!("CARGO_BIN_EXE_bench"));
    command.args(["--records", &RECORDS.to_string()]);
    for (option, program) in PROGRAMS {
        command.args([option, program]);
    }
    for (option, program) in programs {
        command.arg(option).arg(program);
    }
    let output = command.env("TMPDIR", &folder).output().unwrap();
    assert_eq!(fs::read_dir(&folder).unwrap().count(), 0, "in {folder}");
    output
}

/// Some lines of shell as a program of this name, and the folder that has it.
fn feigned(name: &str, lines: &str) -> (Folder, PathBuf) {
    let root = root_with(name, &[(name, lines)]);
    let place = place_in(&root, name);
    (root, place)
}

/// The numbers of a table's row, without their commas.
fn numbers(row: &str) -> Vec<f64> {
    let cells = row.trim_matches('|').split('|').skip(1);
    cells
        .map(|cell| cell.trim().replace(',', "").parse().unwrap())
        .collect()
}

/// The row of an input has so many refused records and so many unread on the
/// average, and then the speed of both programs.
fn check_row(row: &str, refused: f64, mean_unread: RangeInclusive<f64>) {
    let numbers = numbers(row);
    assert_eq!(numbers.len(), 7, "{row}");
    assert!(
        numbers[0] >= RECORDS && numbers[0] < RECORDS + 5_000.0,
        "{row}"
    );
    assert_eq!(numbers[1] + numbers[2], numbers[0], "{row}");
    assert_eq!(numbers[2], refused, "{row}");
    assert!(mean_unread.contains(&numbers[3]), "{row}");
    check_speed(&numbers[4..], row);
}

/// The row of the made-up pass has ten times as many records as are asked for,
/// and the speed of both programs.
fn check_made_up(row: &str) {
    assert!(row.starts_with("| seed 1 | "), "{row}");
    let numbers = numbers(row);
    assert_eq!(numbers.len(), 4, "{row}");
    assert_eq!(numbers[0], 10.0 * RECORDS, "{row}");
    check_speed(&numbers[1..], row);
}

/// The rates of both programs, and their ratio in two digits behind the point.
fn check_speed(speed: &[f64], row: &str) {
    let [proved, rust, ratio] = speed.try_into().unwrap();
    assert!(proved > 0.0 && rust > 0.0, "{row}");
    assert!((rust / proved - ratio).abs() < 0.006, "{row}");
}

/// The row of a call has a time for each column, and all stand within what a
/// call can take.
fn check_call(row: &str, name: &str) {
    assert!(row.starts_with(&format!("| {name} | ")), "{row}");
    let numbers = numbers(row);
    assert_eq!(numbers.len(), 3, "{row}");
    assert!(
        numbers.iter().all(|micros| (0.0..1_000.0).contains(micros)),
        "{row}"
    );
}

/// The row of a program has its peak and its state, neither of them nothing.
fn check_memory(row: &str, name: &str) {
    assert!(row.starts_with(&format!("| {name} | ")), "{row}");
    let numbers = numbers(row);
    assert_eq!(numbers.len(), 2, "{row}");
    assert!(numbers.iter().all(|&number| number > 0.0), "{row}");
}

#[test]
fn a_small_run_prints_a_row_for_each_input_and_each_call() {
    let [Some(replay), Some(made_up), Some(timing)] =
        [USUAL_PLACE, MADE_UP, TIMING].map(program_at)
    else {
        return;
    };
    // It writes no other pass than that of the row.
    let of_row = format!("[ \"$*\" = '1 200000' ] && exec {RUST_MADE_UP} $*");
    let (_folder, one_pass) = feigned("pass-of-row", &of_row);
    let programs = [
        ("--replay", replay),
        ("--made-up", made_up),
        ("--engine-made-up", one_pass),
        ("--timing", timing),
    ];
    let output = bench("bench-small", &programs);
    let said = String::from_utf8_lossy(&output.stderr);
    assert!(output.status.success() && said.is_empty(), "{said}");
    let printed = String::from_utf8(output.stdout).unwrap();
    let lines: Vec<&str> = printed.lines().collect();
    assert_eq!(lines.len(), 25, "{printed}");
    check_row(lines[2], 0.0, 5.0..=20.0);
    check_row(lines[3], 0.0, 250.0..=550.0);
    check_row(lines[4], 0.0, 850.0..=1_024.0);
    check_row(lines[5], 0.0, 900.0..=1_024.0);
    check_row(lines[6], RECORDS, 250.0..=550.0);
    check_made_up(lines[10]);
    check_call(lines[14], "`step`, by value");
    check_call(lines[15], "`step_lent`");
    check_call(lines[16], "`step_in_place`");
    check_call(lines[17], "`is_sound`");
    check_memory(lines[21], "`replay`, proved");
    check_memory(lines[22], "`engine-replay`, Rust");
    check_memory(lines[23], "`made_up`, proved");
    check_memory(lines[24], "`made-up`, Rust");
}

/// With this program by this option, the outputs for this input differ, which
/// is told and nothing printed.
fn assert_differ(name: &str, option: &str, program: impl AsRef<OsStr>, input: &str) {
    let output = bench(name, &[(option, program)]);
    assert_eq!(output.status.code(), Some(1));
    assert_eq!(output.stdout, b"");
    let said = String::from_utf8(output.stderr).unwrap();
    let told = format!("bench: {input}: the outputs of the two programs differ\n");
    assert_eq!(said, told);
}

/// The first input of the runs.
const FIRST_INPUT: &str = "a pass with moves, few unread";

#[test]
fn programs_that_differ_are_told() {
    for option in ["--replay", "--engine-replay"] {
        assert_differ("bench-differ", option, "/bin/cat", FIRST_INPUT);
    }
}

/// At the end of outputs that are equal so far, which is many pieces from their
/// start.
#[test]
fn programs_that_differ_late_are_told() {
    for change in ["head -c -1", "sed '$a more'", "sed '$s/end/and/'"] {
        let (_folder, changed) = feigned("changed-run", &format!("{ENGINE} | {change}"));
        for option in ["--replay", "--engine-replay"] {
            assert_differ("bench-late", option, &changed, FIRST_INPUT);
        }
    }
}

/// The pass of another seed, and one that ends a record early or late.
#[test]
fn made_up_passes_that_differ_are_told() {
    for arguments in ["$(($1 + 1)) $2", "$1 $(($2 - 1))", "$1 $(($2 + 1))"] {
        let (_folder, changed) =
            feigned("changed-pass", &format!("exec {RUST_MADE_UP} {arguments}"));
        for option in ["--made-up", "--engine-made-up"] {
            assert_differ("bench-made", option, &changed, "a made-up pass");
        }
    }
}

/// A program that prints something else did not make the calls.
#[test]
fn calls_that_are_not_made_are_told() {
    let output = bench("bench-calls", &[("--timing", "/bin/cat")]);
    assert_eq!(output.status.code(), Some(1));
    assert_eq!(output.stdout, b"");
    let said = String::from_utf8(output.stderr).unwrap();
    assert_eq!(said, "bench: /bin/cat: not what was asked for\n");
}

#[test]
fn a_program_that_fails_is_told() {
    for (option, input) in [
        ("--engine-replay", FIRST_INPUT),
        ("--engine-made-up", "a made-up pass"),
    ] {
        let output = bench("bench-fails", &[(option, "false")]);
        assert_eq!(output.status.code(), Some(1));
        let said = String::from_utf8(output.stderr).unwrap();
        let told = format!("bench: {input}: false ended with exit status: 1\n");
        assert_eq!(said, told);
    }
}

#[test]
fn a_program_that_is_not_there_is_told() {
    for (option, name) in [
        ("--replay", "replay"),
        ("--made-up", "made_up"),
        ("--timing", "test_timing"),
    ] {
        let output = bench("bench-none", &[(option, "none")]);
        assert_eq!(output.status.code(), Some(1));
        let said = String::from_utf8(output.stderr).unwrap();
        let told =
            format!("bench: there is no program at none; 'rt run' in crates/{name} builds it\n");
        assert_eq!(said, told);
    }
}

#[test]
fn other_arguments_get_the_usage() {
    for arguments in [&["--records"][..], &["--records", "0"], &["--fast", "1"]] {
        let output = Command::new(env!("CARGO_BIN_EXE_bench"))
            .args(arguments)
            .output()
            .unwrap();
        assert_eq!(output.status.code(), Some(1));
        let said = String::from_utf8(output.stderr).unwrap();
        assert!(said.starts_with("bench: usage: bench "), "{said}");
    }
}
