//! Tables that explain: docs/REFUSALS.md has a row for each number.

use crate::document::Document;
use crate::made_up_program::MADE_UP;
use crate::proved_program::program_at;
use crate::table::{tables, Table};
use engine::{NotMade, Refusal};
use std::process::Command;

/// The tables of a document.
pub fn tables_of(name: &str) -> Vec<Table> {
    let document = Document::read(name).unwrap();
    tables(document.prose.iter().map(|(_, line)| &line[..]))
}

/// The table of a document with this header.
fn table_of(name: &str, header: &str) -> Table {
    let mut tables = tables_of(name).into_iter();
    let found = tables.find(|table| table.header == header);
    found.unwrap_or_else(|| panic!("{name} has no table '{header}'"))
}

/// Cell by cell what a run in words says of each, and that the withdrawn
/// numbers are given no more. 26 and 27 refuse a made-up pass and no step.
#[test]
fn every_number_is_explained() {
    let header = "| Number | What it means at the rack | What to do |";
    let table = table_of("docs/REFUSALS.md", header);
    let given = Refusal::ALL.map(|refusal| (refusal.number(), refusal.meaning(), refusal.remedy()));
    let mut numbers = [&given[..], &Refusal::WITHDRAWN].concat();
    numbers.sort();
    let explained = numbers.iter().map(|&(number, meaning, remedy)| {
        vec![number.to_string(), meaning.to_owned(), remedy.to_owned()]
    });
    assert_eq!(table.rows, Vec::from_iter(explained));
    let numbers = numbers.iter().map(|&(number, ..)| number);
    assert!(numbers.eq((1..=25).chain([28])));
}

/// In the words of the second engine and of the program.
#[test]
fn refused_passes_are_explained() {
    let header = "| Number | What it means for a made-up pass | What to do |";
    let table = table_of("docs/REFUSALS.md", header);
    let rows = table.rows.iter();
    let explained: Vec<String> = rows
        .map(|row| format!("refused with {}: {}", row[0], row[1]))
        .collect();
    let told = [NotMade::SeedZero, NotMade::BufferShort].map(|check| check.to_string());
    assert_eq!(explained, told);
    let Some(made_up) = program_at(MADE_UP) else {
        return;
    };
    let output = Command::new(made_up).args(["0", "1"]).output().unwrap();
    let said = String::from_utf8(output.stderr).unwrap();
    assert_eq!(said, format!("made_up: {}\n", told[0]));
}

#[test]
fn tables_are_told_apart() {
    let text = "| A | B |\n|---|---:|\n| 1 | 2 |\n\n| C |\n|---|\ntext\n| D |";
    let row = vec!["1".to_owned(), "2".to_owned()];
    let expected = [
        ("| A | B |", vec![row]),
        ("| C |", vec![]),
        ("| D |", vec![]),
    ];
    let found: Vec<_> = tables(text.lines())
        .into_iter()
        .map(|table| (table.header, table.rows))
        .collect();
    assert_eq!(
        found,
        expected.map(|(header, rows)| (header.to_owned(), rows))
    );
}
