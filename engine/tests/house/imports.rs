//! Imports of Antt texts: `use A.B.{c, d as e}`, `use A.B`, `use A.B as c`.

use crate::words::{words, Word};
use std::collections::HashSet;

/// An imported name: its line, its whole path, and what the file calls it.
#[derive(Debug, PartialEq)]
pub struct Import {
    pub line: usize,
    pub path: String,
    pub local: String,
}

/// How a statement begins that brings in other files.
const BEGINNINGS: [&str; 5] = ["use ", "pub use ", "ghost use ", "mod ", "pub mod "];

/// The lines of such statements; a list in braces may go over several.
pub fn import_lines(text: &str) -> HashSet<usize> {
    let mut lines = HashSet::new();
    let mut open = false;
    for (line, content) in (1..).zip(text.lines()) {
        if open || BEGINNINGS.iter().any(|first| content.starts_with(first)) {
            lines.insert(line);
            open = !content.contains('}') && (open || content.contains('{'));
        }
    }
    lines
}

/// The imported names of a text.
pub fn imports(text: &str) -> Vec<Import> {
    let inside = import_lines(text);
    let mut words = words(text);
    words.retain(|word| inside.contains(&word.line));
    let statements = words.split(|word| word.text == "use");
    statements.skip(1).flat_map(imports_of_statement).collect()
}

/// The names of one statement, of the words behind its `use`.
fn imports_of_statement(words: &[Word]) -> Vec<Import> {
    match words {
        [path, open, rest @ ..] if open.text == "{" => listed(path.text, rest),
        [path, renamed, local, ..] if renamed.text == "as" => vec![imported("", path, Some(local))],
        [path, ..] => vec![imported("", path, None)],
        [] => Vec::new(),
    }
}

/// The names of a list, of the words behind its first brace.
fn listed(path: &str, words: &[Word]) -> Vec<Import> {
    let inside = words.split(|word| word.text == "}").next();
    let names = inside.unwrap_or(words).split(|word| word.text == ",");
    names
        .filter_map(|name| Some(imported(path, name.first()?, name.get(2))))
        .collect()
}

fn imported(path: &str, name: &Word, renamed: Option<&Word>) -> Import {
    let local = renamed.map_or(last_of_path(name.text), |word| word.text);
    Import {
        line: name.line,
        path: format!("{path}{}", name.text),
        local: local.to_owned(),
    }
}

fn last_of_path(path: &str) -> &str {
    path.rsplit('.').next().unwrap_or(path)
}

/// The words of a text that are in no import.
pub fn words_outside(text: &str) -> Vec<Word<'_>> {
    let inside = import_lines(text);
    let mut words = words(text);
    words.retain(|word| !inside.contains(&word.line));
    words
}

mod tests {
    use super::{import_lines, imports, words_outside};

    const TEXT: &str =
        "-- use a.b\nuse a.B\nuse a.c as d\npub use e.{f, ◌≡◌,\n  g as h,\n}\nk = B.x";

    #[test]
    fn every_form_is_read() {
        let found = imports(TEXT);
        let found: Vec<_> = found
            .iter()
            .map(|import| (import.line, &import.path[..], &import.local[..]))
            .collect();
        let expected = [
            (2, "a.B", "B"),
            (3, "a.c", "d"),
            (4, "e.f", "f"),
            (4, "e.◌≡◌", "◌≡◌"),
            (5, "e.g", "h"),
        ];
        assert_eq!(found, expected);
    }

    #[test]
    fn ghost_imports_end_with_a_semicolon() {
        let found = imports("ghost use a.{b};\nghost use c.D;\nghost use c.E as F;");
        let found: Vec<_> = found.iter().map(|import| &import.local[..]).collect();
        assert_eq!(found, ["b", "D", "F"]);
    }

    #[test]
    fn imports_are_told_from_the_rest() {
        let mut lines: Vec<_> = import_lines(TEXT).into_iter().collect();
        lines.sort();
        assert_eq!(lines, [2, 3, 4, 5, 6]);
        let rest: Vec<_> = words_outside(TEXT).iter().map(|word| word.text).collect();
        assert_eq!(rest, ["k", "=", "B.x"]);
    }
}
