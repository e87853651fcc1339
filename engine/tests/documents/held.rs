//! All documents, block by block.

use crate::console::{self, Shown};
use crate::document::{names, Document};
use crate::made_up_program::MADE_UP;
use crate::proved_program::{program_at, USUAL_PLACE};
use crate::release_programs::build_release;
use crate::{quotes, running_text};

/// The page of the port, which lays what was beside what is, and theorems
/// without their proofs: of its blocks, and of the commands that it names, many
/// stand nowhere. Its links are held like those of any page.
const PORT: &str = "docs/PORT.md";

/// Where the example is built that README builds.
const TALLY: &str = concat!(
    env!("CARGO_MANIFEST_DIR"),
    "/../crates/example_tally/out/example_tally"
);

fn documents() -> Vec<Document> {
    let read = |name: &String| Document::read(name).unwrap_or_else(|problem| panic!("{problem}"));
    names().iter().map(read).collect()
}

/// The commands that a document shows.
fn commands(document: &Document) -> Vec<Shown> {
    let consoles = document
        .blocks
        .iter()
        .filter(|block| block.kind == "console");
    consoles
        .flat_map(|block| {
            console::shown_in(block)
                .unwrap_or_else(|problem| panic!("{}", document.at(block.line, problem)))
        })
        .collect()
}

#[test]
fn every_command_prints_what_is_shown() {
    if [USUAL_PLACE, MADE_UP, TALLY]
        .map(program_at)
        .contains(&None)
    {
        return;
    }
    build_release(&["--made", "1", "0"]);
    for document in documents() {
        for shown in commands(&document) {
            if let Err(problem) = console::check(&shown) {
                panic!("{}", document.at(shown.line, problem));
            }
        }
    }
}

#[test]
fn every_other_block_shows_a_file() {
    for document in documents() {
        if document.name == PORT {
            continue;
        }
        for block in &document.blocks {
            if block.kind != "console" {
                if let Err(problem) = quotes::check(block) {
                    panic!("{}", document.at(block.line, problem));
                }
            }
        }
    }
}

#[test]
fn running_text_names_what_is_there() {
    let documents = documents();
    let shown = documents.iter().flat_map(commands);
    let shown: Vec<String> = shown.map(|shown| shown.command).collect();
    assert!(shown.len() >= 8, "only {} commands are shown", shown.len());
    for document in &documents {
        if document.name != PORT {
            running_text::check_commands(document, &shown)
                .unwrap_or_else(|problem| panic!("{problem}"));
        }
        running_text::check_links(document).unwrap_or_else(|problem| panic!("{problem}"));
    }
}
