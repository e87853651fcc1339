//! What is said of a line that is no record: its number, and what was expected.

use crate::step_log::KINDS;
use engine::text::{encode, told, TextError, MOST_ERRORS};

/// What is said of a text.
fn complaint(text: &str) -> String {
    match encode(text) {
        Ok(log) => panic!("{text:?} is read as {log:?}"),
        Err(errors) => told(&errors, ""),
    }
}

/// What is said of a first line with this unknown word.
fn unknown(word: &str) -> String {
    let known = KINDS.map(|(_, word, _)| word).join(", ");
    format!("line 1: '{word}' is no record kind; one of {known}, bytes")
}

#[test]
fn an_unknown_word_is_named() {
    for word in [
        "sned", "Start", "SEND", "0", "look,", "byte", "\u{FFFD}", "12",
    ] {
        assert_eq!(complaint(&format!("{word} 0 1")), unknown(word));
    }
}

#[test]
fn invisible_characters_are_shown() {
    let said = complaint("look 0\n\u{FEFF}start 0 0");
    assert!(
        said.starts_with("line 2: '\\u{feff}start' is no record kind"),
        "{said}"
    );
    let said = complaint("look \u{1b}[2J");
    assert_eq!(
        said,
        "line 1: rank '\\u{1b}[2J' is not a number from 0 to 255"
    );
}

#[test]
fn missing_fields_are_named() {
    for (line, needs) in [
        ("start", "start needs rank and host"),
        ("start 0", "start needs rank and host"),
        ("call 0", "call needs calling rank and called rank"),
        ("route 0", "route needs calling rank and called rank"),
        ("send", "send needs sender, receiver and value"),
        ("send 0", "send needs sender, receiver and value"),
        ("send 0 1 # 500", "send needs sender, receiver and value"),
        ("take 0", "take needs receiver and sender"),
        ("move 0", "move needs rank and host"),
        ("heed 0", "heed needs heeding rank and moving rank"),
        ("drain 0", "drain needs moving rank and sender"),
        ("land", "land needs moving rank"),
        ("part 0", "part needs rank and other rank"),
        ("end", "end needs rank"),
        ("look #", "look needs rank"),
        ("bytes", "bytes needs at least one byte"),
    ] {
        assert_eq!(complaint(line), format!("line 1: {needs}"), "{line}");
    }
}

#[test]
fn fields_too_many_are_named() {
    for (line, expected) in [
        ("start 0 0 7", "'7' is too much; start needs rank and host"),
        ("look 0 1 2", "'1' is too much; look needs rank"),
        (
            "send 0 1 500 send 0 1 501",
            "'send' is too much; send needs sender, receiver and value",
        ),
        (
            "call 0 1, route 0 1",
            "'route' is too much; call needs calling rank and called rank",
        ),
    ] {
        assert_eq!(complaint(line), format!("line 1: {expected}"));
    }
}

#[test]
fn numbers_out_of_range_are_named() {
    for word in [
        "256", "300", "0x100", "-1", "+1", "1.0", "a", "0x", "0xg", "0x-1", "0X1", "1_0",
    ] {
        let limits = format!("'{word}' is not a number from 0 to 255");
        for line in [
            "call * 0",
            "call 0 *",
            "send * 0 0",
            "send 0 * 0",
            "land *",
            "start * 0",
        ] {
            let expected = format!("line 1: rank {limits}");
            assert_eq!(complaint(&line.replace('*', word)), expected);
        }
        for line in ["start 0 *", "move 0 *"] {
            let expected = format!("line 1: host {limits}");
            assert_eq!(complaint(&line.replace('*', word)), expected);
        }
    }
    for word in [
        "4294967296",
        "0x100000000",
        "99999999999999999999",
        "-1",
        "five",
        "0x",
    ] {
        let expected = format!("line 1: value '{word}' is not a number from 0 to 4294967295");
        assert_eq!(complaint(&format!("send 0 1 {word}")), expected);
    }
    for word in ["100", "fff", "g", "-1", "+1", "0x", "0x100", "1,"] {
        let expected = format!("line 1: byte '{word}' is not a hexadecimal number from 0 to ff");
        assert_eq!(complaint(&format!("bytes 0 {word} 1")), expected);
    }
}

/// Lines are counted from 1, with those that hold no record.
#[test]
fn wrong_lines_are_named() {
    for (text, lines) in [
        ("look", &[1][..]),
        ("start 0 0\nlook", &[2]),
        ("\n# look\nlook\nlook", &[3, 4]),
        ("\r\n\r\n\r\nlook\r\n", &[4]),
        ("look 0\n\nlook 1\n\nlook", &[5]),
        ("look\nlook 0\nlook\nlook 1\nlook", &[1, 3, 5]),
    ] {
        let expected = lines.iter().map(|&line| TextError {
            line,
            problem: "look needs rank".to_owned(),
        });
        assert_eq!(encode(text), Err(expected.collect()), "{text:?}");
    }
}

#[test]
fn ten_wrong_lines_are_told_at_once() {
    for count in [9, MOST_ERRORS, 11, 100_000] {
        let errors = encode(&"look\n".repeat(count)).unwrap_err();
        let lines: Vec<usize> = errors.iter().map(|error| error.line).collect();
        let told: Vec<usize> = (1..=count.min(MOST_ERRORS)).collect();
        assert_eq!(lines, told);
    }
    assert_eq!(MOST_ERRORS, 10);
}

/// A word is shown up to 80 characters.
#[test]
fn a_long_word_is_cut() {
    let long = "x".repeat(2_000_000);
    for (word, shown) in [
        (&long[..80], long[..80].to_owned()),
        (&long[..81], format!("{}..", &long[..80])),
        (&long, format!("{}..", &long[..80])),
    ] {
        assert_eq!(complaint(word), unknown(&shown));
        let expected = format!("line 1: rank '{shown}' is not a number from 0 to 255");
        assert_eq!(complaint(&format!("look {word}")), expected);
        let expected = format!("line 1: byte '{shown}' is not a hexadecimal number from 0 to ff");
        assert_eq!(complaint(&format!("bytes {word}")), expected);
        let expected = format!("line 1: '{shown}' is too much; look needs rank");
        assert_eq!(complaint(&format!("look 0 {word}")), expected);
    }
}
