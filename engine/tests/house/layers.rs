//! README's table of layers has a row for each crate, and crates.txt a line for
//! each folder.

use crate::table::tables;
use crate::tree::{entries, expect_none, is_folder, Source};

const HEADER: &str = "| Folder | What it holds |";

/// The crates that crates.txt lists.
fn listed(crates: &str) -> Vec<&str> {
    let lines = crates.lines().filter(|line| !line.starts_with('#'));
    lines
        .filter_map(|line| Some(line.split_once(':')?.0))
        .collect()
}

/// The folders of the table of layers.
fn folders(readme: &str) -> Vec<String> {
    let found = tables(readme.lines()).into_iter();
    let layers = found.filter(|table| table.header == HEADER);
    let rows = layers.flat_map(|table| table.rows);
    rows.map(|row| row[0].trim_matches('`').to_owned())
        .collect()
}

/// What is in the one and not in the other, or not as often.
fn differences(readme: &str, crates: &str, present: &[String]) -> Vec<String> {
    let listed = listed(crates);
    let folders = folders(readme);
    let mut expected: Vec<String> = listed.iter().map(|name| format!("crates/{name}")).collect();
    expected.push("engine/".to_owned());
    let mut findings = Vec::new();
    for folder in &expected {
        let rows = folders.iter().filter(|found| *found == folder).count();
        if rows != 1 {
            findings.push(format!("README.md: {rows} rows for {folder}"));
        }
    }
    let unknown = folders.iter().filter(|folder| !expected.contains(folder));
    findings.extend(unknown.map(|folder| format!("README.md: {folder} is no layer")));
    let absent = listed
        .iter()
        .filter(|name| !present.iter().any(|found| found == *name));
    findings.extend(absent.map(|name| format!("crates.txt: there is no folder crates/{name}")));
    let unlisted = present.iter().filter(|name| !listed.contains(&&name[..]));
    findings.extend(unlisted.map(|name| format!("crates.txt: crates/{name} is not listed")));
    findings
}

#[test]
fn readme_layers_are_the_crates() {
    let mut present = entries("crates");
    present.retain(|name| is_folder(&format!("crates/{name}")));
    let (readme, crates) = (Source::read("README.md"), Source::read("crates.txt"));
    expect_none(&differences(&readme.text, &crates.text, &present));
}

#[test]
fn differing_layers_are_found() {
    let readme = format!(
        "{HEADER}\n|---|---|\n| `crates/a` | x |\n| `crates/a` | x |\n| `crates/c` | x |\n"
    );
    let found = differences(
        &readme,
        "# a\na: b\nb:\n",
        &["a".to_owned(), "d".to_owned()],
    );
    let expected = [
        "README.md: 2 rows for crates/a",
        "README.md: 0 rows for crates/b",
        "README.md: 0 rows for engine/",
        "README.md: crates/c is no layer",
        "crates.txt: there is no folder crates/b",
        "crates.txt: crates/d is not listed",
    ];
    assert_eq!(found, expected);
}
