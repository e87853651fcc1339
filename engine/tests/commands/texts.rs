//! Text logs as people write them, and what is said of those that are none.

use crate::script::{file_with, run_of, shell, End};

/// How a replay of a text ended: from a file, and from a pipe.
fn replayed(name: &str, text: &[u8]) -> Option<(End, String)> {
    let file = file_with(name, text).display().to_string();
    let end = shell(&format!("./run --text '{file}'"))?;
    let piped = shell(&format!("cat '{file}' | ./run --text -")).unwrap();
    let said = end.said.replace(&file, "standard input");
    assert_eq!(
        (piped.status, &piped.printed, &piped.said),
        (end.status, &end.printed, &said)
    );
    Some((end, file))
}

const PLAIN: &str = "start 0 0\nstart 1 1\ncall 0 1\nroute 0 1\nsend 0 1 500\n";
const RUN: &str = "0 01 0 0 1 0\n3 01 0 1 1 0\n6 02 0 1 1 0\n9 03 0 0 1 1\n12 04 0 1 0 0\npair 0 1 0 0 0 1\nend\n";

#[test]
fn line_ends_tabs_and_a_byte_order_mark_do_not_matter() {
    for (name, text) in [
        ("plain.txt", PLAIN.to_owned()),
        ("crlf.txt", PLAIN.replace('\n', "\r\n")),
        ("tabs.txt", PLAIN.replace(' ', "\t")),
        ("mark.txt", format!("\u{FEFF}{PLAIN}")),
        ("unended.txt", PLAIN.trim_end().to_owned()),
        ("blank-first.txt", format!("\n \t\r\n{PLAIN}")),
    ] {
        let Some((end, _)) = replayed(name, text.as_bytes()) else {
            return;
        };
        let found = (end.status, &end.printed[..], &end.said[..]);
        assert_eq!(found, (Some(0), RUN, ""), "{name}");
    }
}

#[test]
fn errors_name_the_file_and_the_line() {
    let text = b"start 0 0\nsned 0 1 500\n\nlook\n";
    let Some((end, file)) = replayed("wrong.txt", text) else {
        return;
    };
    assert_eq!((end.status, &end.printed[..]), (Some(1), ""));
    let lines: Vec<&str> = end.said.lines().collect();
    let start = format!("{file}, line 2: 'sned' is no record kind; one of start, call,");
    assert!(
        lines.len() == 2 && lines[0].starts_with(&start),
        "{}",
        end.said
    );
    assert_eq!(lines[1], format!("{file}, line 4: look needs rank"));
}

#[test]
fn two_megabytes_of_junk_get_ten_short_errors() {
    let mut state = 1_u32;
    let mut junk: Vec<u8> = Vec::new();
    while junk.len() < 2 << 20 {
        state = state.wrapping_mul(1_664_525).wrapping_add(1_013_904_223);
        junk.push((state >> 24) as u8);
    }
    for (name, bytes, errors) in [
        ("junk.txt", &junk[..], 10),
        ("one-word.txt", &[b'x'; 2 << 20][..], 1),
    ] {
        let Some((end, _)) = replayed(name, bytes) else {
            return;
        };
        assert_eq!((end.status, &end.printed[..]), (Some(1), ""), "{name}");
        assert_eq!(end.said.lines().count(), errors, "{name}");
        assert!(
            end.said.lines().all(|line| line.chars().count() < 400),
            "{}",
            end.said
        );
    }
}

#[test]
fn a_text_without_the_option_gets_a_hint() {
    for (line, name) in [
        ("./run examples/listing.txt", "examples/listing.txt"),
        ("cat examples/listing.txt | ./run -", "standard input"),
        ("./run - <examples/listing.txt", "standard input"),
        ("printf '\\n\\t start 0 0' | ./run -", "standard input"),
        ("printf '\\357\\273\\277look 0' | ./run -", "standard input"),
    ] {
        let Some(end) = shell(line) else { return };
        let hint = format!("{name} looks like a text log, which ./run --text replays\n");
        assert_eq!((end.status, &end.said[..]), (Some(0), &hint[..]), "{line}");
        assert!(end.printed.ends_with("end\n"));
    }
}

#[test]
fn a_log_gets_no_hint() {
    for line in [
        "./run",
        "./run - <crates/replay/stdin",
        "cat crates/replay/stdin | ./run -",
        "./run - </dev/null",
        "printf '\\t\\001' | ./run -",
        "printf '\\377' | ./run -",
    ] {
        let Some(end) = shell(line) else { return };
        assert_eq!((end.status, &end.said[..]), (Some(0), ""), "{line}");
    }
}

#[test]
fn standard_input_is_read_as_text() {
    let Some(end) = shell("./run --text - <examples/move-in-mid-pass.txt") else {
        return;
    };
    assert_eq!(
        (end.status, end.printed),
        (Some(0), run_of("move-in-mid-pass"))
    );
}
