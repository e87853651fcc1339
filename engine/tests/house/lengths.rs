//! No line is too long to read.

use crate::tree::{expect_none, pages, sources, Source};

/// The most characters of a line.
const MOST: usize = 140;

fn too_long(source: &Source) -> Vec<String> {
    long_among(source, source.lines())
}

/// Of a page, the running text alone: a row of a table, and what a fenced block
/// shows, can't be broken.
fn text_too_long(page: &Source) -> Vec<String> {
    let mut fenced = false;
    let text = page.lines().filter(|(_, content)| {
        let fence = content.starts_with("```");
        fenced ^= fence;
        !(fenced || fence || content.starts_with('|'))
    });
    long_among(page, text)
}

fn long_among<'a>(source: &Source, lines: impl Iterator<Item = (usize, &'a str)>) -> Vec<String> {
    let counted = lines.map(|(line, content)| (line, content.chars().count()));
    let long = counted.filter(|(_, length)| *length > MOST);
    long.map(|(line, length)| source.at(line, format!("{length} characters")))
        .collect()
}

#[test]
fn no_line_is_too_long() {
    let findings: Vec<String> = sources(&[".antt", ".rt"])
        .iter()
        .flat_map(too_long)
        .collect();
    expect_none(&findings);
}

#[test]
fn no_line_of_a_page_is_too_long() {
    let findings: Vec<String> = pages().iter().flat_map(text_too_long).collect();
    expect_none(&findings);
}

#[test]
fn long_lines_are_counted_in_characters() {
    let text = format!("{}\n{}", "ℕ".repeat(140), "ℕ".repeat(141));
    assert_eq!(too_long(&Source::of("x", &text)), ["x:2: 141 characters"]);
}

#[test]
fn tables_and_fenced_blocks_of_a_page_may_be_wide() {
    let long = "a".repeat(141);
    let page = format!("| {long} |\n```console\n{long}\n```\n{long}\n");
    let findings = text_too_long(&Source::of("P.md", &page));
    assert_eq!(findings, ["P.md:5: 141 characters"]);
}
