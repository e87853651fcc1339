//! Commands and links in running text: a command is one that a console block
//! shows, or its beginning, and a link leads to a file.

use crate::document::{Document, ROOT};
use std::path::Path;

/// How code in running text begins when it is a command.
const BEGINNINGS: [&str; 6] = ["./", ".ci/", "cargo ", "rt ", "logtext ", "$ "];

/// The first command of a document that is none of those shown.
pub fn check_commands(document: &Document, shown: &[String]) -> Result<(), String> {
    for (line, text) in &document.prose {
        for code in text.split('`').skip(1).step_by(2) {
            let is_command = BEGINNINGS.iter().any(|first| code.starts_with(first));
            if is_command && !shown.iter().any(|command| begins(command, code)) {
                return Err(document.at(*line, format!("no console block shows '{code}'")));
            }
        }
    }
    Ok(())
}

/// Whether a command begins with some code, from the folder on that it goes to.
fn begins(command: &str, code: &str) -> bool {
    let inside = command
        .strip_prefix("cd ")
        .and_then(|moved| moved.split_once(" && "));
    command.starts_with(code) || inside.is_some_and(|(_, inside)| inside.starts_with(code))
}

/// The first link of a document that leads nowhere.
pub fn check_links(document: &Document) -> Result<(), String> {
    let folder = Path::new(ROOT).join(&document.name);
    let folder = folder.parent().expect("a document is in a folder");
    for (line, text) in &document.prose {
        for rest in text.split("](").skip(1) {
            let target = rest.split_once(')').map_or(rest, |(target, _)| target);
            if !folder.join(target).is_file() {
                return Err(document.at(*line, format!("the link to '{target}' leads nowhere")));
            }
        }
    }
    Ok(())
}

mod tests {
    use super::{check_commands, check_links};
    use crate::document::Document;

    fn document(text: &str) -> Document {
        Document::parse("docs/D.md", text).unwrap()
    }

    #[test]
    fn commands_are_compared_with_those_shown() {
        let shown = [
            "./run --text examples/listing.txt",
            "cd crates/steps && rt fmt",
        ];
        let shown = shown.map(str::to_owned);
        let checked = |text: &str| check_commands(&document(text), &shown);
        assert_eq!(
            checked("`./run` and `send 0 1 500`, `./run --text` and `rt fmt` too"),
            Ok(())
        );
        for text in [
            "`./run FILE`",
            "a `b`, `cargo test`",
            "`logtext decode`",
            "`rt fmt all`",
        ] {
            assert!(checked(text).is_err(), "{text}");
        }
    }

    #[test]
    fn links_are_followed() {
        let checked = |text: &str| check_links(&document(text));
        assert_eq!(checked("[a](FORMAT.md), [b](../README.md)"), Ok(()));
        for text in ["[a](../FORMAT.md)", "[a](FORMAT.md), [b](none.md)"] {
            assert!(checked(text).is_err(), "{text}");
        }
    }
}
