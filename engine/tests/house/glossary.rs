//! The words that users read are the paper's: docs/GLOSSARY.md joins them to
//! names that the code has, and the code's words for them stand nowhere else
//! in what users read.

use crate::names::declared;
use crate::table::tables;
use crate::tree::{entries, expect_none, sources, Source};
use std::collections::HashSet;

const HEADER: &str = "| Word | What it is | In the code |";

/// The pages that users read, beside the examples.
const PAGES: [&str; 3] = ["README.md", "docs/FORMAT.md", "docs/REFUSALS.md"];

/// The code's words for a lane, an await, a move, a mover and a call.
const OTHERS: [&str; 5] = [
    "channel",
    "backlog",
    "migrat",
    "source process",
    "connection",
];

/// What stands in backticks in a line.
fn code_in(line: &str) -> impl Iterator<Item = &str> {
    line.split('`').skip(1).step_by(2)
}

/// The names of the glossary that the code does not have.
fn unknown_names(glossary: &str, declared: &HashSet<String>) -> Vec<String> {
    let rows = tables(glossary.lines())
        .into_iter()
        .filter(|table| table.header == HEADER)
        .flat_map(|table| table.rows);
    let names: Vec<String> = rows
        .flat_map(|row| code_in(&row[2]).map(str::to_owned).collect::<Vec<_>>())
        .collect();
    if names.is_empty() {
        return vec!["there is no glossary".to_owned()];
    }
    let unknown = names.into_iter().filter(|name| !declared.contains(name));
    unknown
        .map(|name| format!("`{name}` is not in the code"))
        .collect()
}

/// The lines of a page that have a word of the code outside backticks.
fn other_words(page: &Source) -> Vec<String> {
    let mut findings = Vec::new();
    for (line, text) in page.lines() {
        let prose: String = text.split('`').step_by(2).collect();
        let found = OTHERS
            .iter()
            .filter(|word| prose.to_lowercase().contains(**word));
        findings.extend(found.map(|word| page.at(line, format!("'{word}' is the code's word"))));
    }
    findings
}

#[test]
fn glossary_names_what_the_code_has() {
    let declared = sources(&[".rt"]).iter().flat_map(declared).collect();
    let glossary = Source::read("docs/GLOSSARY.md");
    expect_none(&unknown_names(&glossary.text, &declared));
}

#[test]
fn users_read_the_words_of_the_paper() {
    let examples = entries("examples")
        .into_iter()
        .map(|name| format!("examples/{name}"));
    let pages = PAGES.iter().map(|&page| page.to_owned()).chain(examples);
    let findings: Vec<String> = pages
        .flat_map(|page| other_words(&Source::read(&page)))
        .collect();
    expect_none(&findings);
}

#[test]
fn names_and_words_that_are_wrong_are_found() {
    let declared = HashSet::from(["Rank".to_owned()]);
    let glossary = |name: &str| format!("{HEADER}\n|---|---|---|\n| `a` | `b` | the `{name}` |\n");
    assert_eq!(unknown_names(&glossary("Rank"), &declared), [""; 0]);
    assert_eq!(unknown_names(&glossary("Rnk"), &declared).len(), 1);
    assert_eq!(unknown_names("| Word |\n", &declared).len(), 1);
    let page = Source::of(
        "p.md",
        "a line\nthe `Channel` and a Channel\nwhile it migrates\n",
    );
    let lines: Vec<String> = other_words(&page);
    assert_eq!(lines.len(), 2, "{lines:?}");
    assert!(lines[0].starts_with("p.md:2: ") && lines[1].starts_with("p.md:3: "));
}
