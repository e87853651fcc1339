//! The wrong desks that the gate tries, each a file crates/NAME/must-fail/
//! LABEL.edit. README says how many there are, so that none goes unnoticed, and
//! the first line of each says what it tries. That its replacements still
//! apply, the gate itself sees to.

use crate::tree::{expect_none, files, Source};

/// What stands in README behind their number.
const COUNTED: &str = "wrong desks";

fn is_edit(path: &str) -> bool {
    let parts: Vec<&str> = path.split('/').collect();
    matches!(parts[..], ["crates", _, "must-fail", label] if label.ends_with(".edit"))
}

/// The number that a page has before the words.
fn said(page: &str) -> Option<usize> {
    let words: Vec<&str> = page.split_whitespace().collect();
    words.windows(3).find_map(|words| {
        let counted = words[1..].join(" ").starts_with(COUNTED);
        words[0].parse().ok().filter(|_| counted)
    })
}

/// An edit that does not say what it tries.
fn without_comment(edit: &Source) -> Option<String> {
    let said = edit
        .text
        .lines()
        .next()
        .and_then(|line| line.strip_prefix("# "));
    let missing = said.is_none_or(|said| said.trim().is_empty());
    missing.then(|| edit.at(1, "no comment says what the edit tries"))
}

#[test]
fn readme_says_how_many_wrong_desks_are_tried() {
    let edits = files().into_iter().filter(|path| is_edit(path)).count();
    let said = said(&Source::read("README.md").text);
    assert_eq!(
        said,
        Some(edits),
        "README.md counts the edits crates/*/must-fail/*.edit: is one missing, put it back; where one \
        came, or went for a reason, correct the number before '{COUNTED}'"
    );
}

#[test]
fn every_wrong_desk_says_what_it_tries() {
    let (edits, others): (Vec<String>, Vec<String>) = files()
        .into_iter()
        .filter(|path| path.contains("/must-fail/"))
        .partition(|path| is_edit(path));
    let untried = others
        .iter()
        .map(|path| format!("{path}: the gate does not try it"));
    let silent = edits
        .iter()
        .filter_map(|path| without_comment(&Source::read(path)));
    expect_none(&untried.chain(silent).collect::<Vec<String>>());
}

#[test]
fn edits_are_told_from_what_is_none() {
    assert!(is_edit("crates/a/must-fail/b.edit"));
    for path in [
        "crates/a/b.edit",
        "crates/a/must-fail/b",
        "crates/a/must-fail/b/c.edit",
    ] {
        assert!(!is_edit(path), "{path}");
    }
}

#[test]
fn the_number_stands_before_the_words() {
    assert_eq!(said("it tries 12 wrong\ndesks, and 3 desks"), Some(12));
    assert_eq!(said("it tries the wrong desks"), None);
}

#[test]
fn an_edit_without_its_comment_is_found() {
    let found = |text: &str| without_comment(&Source::of("e", text));
    assert_eq!(found("# a look of nobody\nfile: src/lib.rt"), None);
    for text in [
        "",
        "# \nfile: src/lib.rt",
        "file: src/lib.rt\n# a look of nobody",
    ] {
        let expected = "e:1: no comment says what the edit tries";
        assert_eq!(found(text).as_deref(), Some(expected));
    }
}
