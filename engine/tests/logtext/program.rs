//! The program `logtext`: both ways, what it says of wrong texts, and that it
//! then writes no log.

use engine::proposals::{random_log, Mix};
use engine::text::decode;
use std::fs::File;
use std::io::Write;
use std::process::{Command, Output, Stdio};

fn logtext(arguments: &[&str], input: impl Into<Stdio>) -> Output {
    Command::new(env!("CARGO_BIN_EXE_logtext"))
        .args(arguments)
        .stdin(input)
        .output()
        .unwrap()
}

/// Runs the program on some bytes, which come from a file of this name.
fn logtext_on(way: &str, name: &str, input: &[u8]) -> Output {
    let path = format!("{}/logtext-{name}", env!("CARGO_TARGET_TMPDIR"));
    File::create(&path).unwrap().write_all(input).unwrap();
    logtext(&[way], File::open(&path).unwrap())
}

#[test]
fn program_encodes_and_decodes() {
    let log = [&random_log(1, Mix::BROAD, 30_000)[..], &[0x04, 0, 1]].concat();
    let text = decode(&log);
    let decoded = logtext_on("decode", "both-ways.log", &log);
    assert!(decoded.status.success() && decoded.stderr.is_empty());
    assert!(decoded.stdout == text.as_bytes());
    let encoded = logtext_on("encode", "both-ways.txt", text.as_bytes());
    assert!(encoded.status.success() && encoded.stderr.is_empty());
    assert!(encoded.stdout == log);
}

#[test]
fn a_wrong_line_is_reported_and_nothing_written() {
    let output = logtext_on("encode", "wrong.txt", b"start 0 0\n\nsned 0 1 500\nlook\n");
    assert_eq!(output.status.code(), Some(1));
    assert_eq!(output.stdout, b"");
    let said = String::from_utf8(output.stderr).unwrap();
    assert!(said.starts_with("line 3: 'sned' is no record kind; one of start, call,"));
    assert!(said.ends_with(", bytes\nline 4: look needs rank\n"));
}

/// Text in another encoding is fine in a comment, and shown elsewhere.
#[test]
fn bytes_that_are_no_text_are_passed_in_comments_only() {
    let output = logtext_on("encode", "comment.txt", b"look 1 # caf\xE9\n");
    assert!(output.status.success());
    assert_eq!(output.stdout, [0x0C, 1]);
    let output = logtext_on("encode", "word.txt", b"look 1\nl\xF6ok 1\n");
    assert_eq!(output.status.code(), Some(1));
    assert_eq!(output.stdout, b"");
    let said = String::from_utf8(output.stderr).unwrap();
    assert!(said.starts_with("line 2: 'l\u{FFFD}ok' is no record kind"));
}

#[test]
fn other_arguments_get_the_usage() {
    for arguments in [
        &[][..],
        &["encoded"],
        &["encode", "x"],
        &["-h"],
        &["decode", "decode"],
    ] {
        let output = logtext(arguments, Stdio::null());
        assert_eq!(output.status.code(), Some(1));
        assert_eq!(output.stdout, b"");
        let said = String::from_utf8(output.stderr).unwrap();
        assert!(
            said.starts_with("usage: logtext encode < TEXT > LOG"),
            "{said}"
        );
    }
}

#[test]
fn an_unreadable_input_is_reported() {
    for way in ["encode", "decode"] {
        let directory = File::open(env!("CARGO_TARGET_TMPDIR")).unwrap();
        let output = logtext(&[way], directory);
        assert_eq!(output.status.code(), Some(1));
        assert_eq!(output.stdout, b"");
        let said = String::from_utf8(output.stderr).unwrap();
        assert!(said.starts_with("cannot read the input: "), "{said}");
    }
}
