//! What is told of wrong arguments, one line on standard error: the number of
//! arguments comes before what they are, and the seed before the count.

use crate::made_up_log::made_up_log;
use crate::program::{End, Program};
use std::ffi::OsStr;
use std::fmt::Debug;
use std::os::unix::ffi::OsStrExt;

/// The longest argument that is read.
const LONGEST: usize = 4_096;

const SEED_IS_NONE: &str = "argument 1, SEED, is no decimal number";
const SEED_IS_ABOVE: &str = "argument 1, SEED, is above 4294967295";
const SEED_IS_LONG: &str = "argument 1, SEED, is longer than 4096 bytes";
const COUNT_IS_NONE: &str = "argument 2, COUNT, is no decimal number";
const COUNT_IS_ABOVE: &str = "argument 2, COUNT, is above 18446744073709551615";
const COUNT_IS_LONG: &str = "argument 2, COUNT, is longer than 4096 bytes";
const SEED_IS_ZERO: &str = "refused with 26: the seed is zero";

/// With these arguments nothing is written, and this is told.
fn assert_refused(program: &Program, arguments: &[impl AsRef<OsStr> + Debug], problem: &str) {
    let output = program.command(arguments).output().unwrap();
    let found = (End::of(&output), &output.stdout[..]);
    assert_eq!(found, (program.telling(problem), &b""[..]), "{arguments:?}");
}

#[test]
fn missing_arguments_are_told() {
    for program in Program::all() {
        assert_refused(&program, &[""; 0], "argument 1, SEED, is missing");
        for seed in ["7", "0", "", "x", "4294967296"] {
            assert_refused(&program, &[seed], "argument 2, COUNT, is missing");
        }
    }
}

#[test]
fn arguments_too_much_are_told() {
    for program in Program::all() {
        for arguments in [
            &["7", "12", "3"][..],
            &["7", "12", ""],
            &["", "", ""],
            &["x", "y", "z", "7"],
            &["0", "18446744073709551616", "--text"],
        ] {
            assert_refused(&program, arguments, "argument 3 is too much");
        }
    }
}

/// Words that are no decimal numbers, though some look like numbers: signs,
/// spaces, other bases, digits of another script, bytes that are no text, and
/// the bytes before `0` and after `9`.
const NO_NUMBERS: [&[u8]; 21] = [
    b"",
    b"x",
    b"-1",
    b"+1",
    b"-",
    b" 1",
    b"1 ",
    b"1\n",
    b"1 2",
    b"1.0",
    b"1e3",
    b"1_000",
    b"1,000",
    b"0x10",
    b"1a",
    b"a1",
    b"/",
    b"1:",
    "٣".as_bytes(),
    b"\xFF",
    b"99999999999999999999999999x",
];

#[test]
fn what_is_no_decimal_number_is_told() {
    for program in Program::all() {
        for word in NO_NUMBERS.map(OsStr::from_bytes) {
            assert_refused(&program, &[word, OsStr::new("12")], SEED_IS_NONE);
            assert_refused(&program, &[word, word], SEED_IS_NONE);
            assert_refused(&program, &[OsStr::new("7"), word], COUNT_IS_NONE);
            assert_refused(&program, &[OsStr::new("0"), word], COUNT_IS_NONE);
        }
    }
}

/// Among them numbers that would be small where 32, 64 or 128 bits wrap round.
#[test]
fn numbers_too_high_are_told() {
    let nines = "9".repeat(LONGEST);
    let higher = [
        "18446744073709551616",
        "18446744073709551617",
        "18446744073709551623",
        "36893488147419103233",
        "340282366920938463463374607431768211457",
        "00018446744073709551616",
        &nines,
    ];
    for program in Program::all() {
        for number in ["4294967296", "4294967297", "004294967296"] {
            assert_refused(&program, &[number, "12"], SEED_IS_ABOVE);
        }
        for number in higher {
            assert_refused(&program, &[number, "12"], SEED_IS_ABOVE);
            assert_refused(&program, &[number, "x"], SEED_IS_ABOVE);
            assert_refused(&program, &["7", number], COUNT_IS_ABOVE);
            assert_refused(&program, &["0", number], COUNT_IS_ABOVE);
        }
    }
}

#[test]
fn arguments_too_long_are_told() {
    for program in Program::all() {
        for digit in ["0", "9", "x"] {
            let long = digit.repeat(LONGEST + 1);
            assert_refused(&program, &[&long, "12"], SEED_IS_LONG);
            assert_refused(&program, &[&long, "x"], SEED_IS_LONG);
            assert_refused(&program, &["7", &long], COUNT_IS_LONG);
            assert_refused(&program, &["0", &long], COUNT_IS_LONG);
        }
    }
}

#[test]
fn seed_zero_is_refused_with_26() {
    for program in Program::all() {
        for seed in ["0", "000"] {
            for count in ["0", "1", "12", "18446744073709551615"] {
                assert_refused(&program, &[seed, count], SEED_IS_ZERO);
            }
        }
    }
}

#[test]
fn leading_zeros_are_no_matter() {
    let zeros = "0".repeat(LONGEST - 1);
    let (seed, count) = (format!("{zeros}7"), format!("{zeros}9"));
    for program in Program::all() {
        program.assert_writes(&["007", "0012"], &made_up_log(7, 12));
        program.assert_writes(&["07", "000"], &[]);
        program.assert_writes(&["00004294967295", "3"], &made_up_log(u32::MAX, 3));
        program.assert_writes(&[seed.as_str(), &count], &made_up_log(7, 9));
    }
}
