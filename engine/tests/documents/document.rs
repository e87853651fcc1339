//! A document as its fenced blocks and the text around them.

use std::fs;
use std::path::Path;

/// The repository's root.
pub const ROOT: &str = concat!(env!("CARGO_MANIFEST_DIR"), "/..");

const FENCE: &str = "```";

/// A fenced block: the line of its fence, what the fence says, and the lines
/// within.
#[derive(Debug, PartialEq)]
pub struct Block {
    pub line: usize,
    pub kind: String,
    pub content: String,
}

/// A document in its parts; lines are counted from 1.
#[derive(Debug)]
pub struct Document {
    pub name: String,
    pub blocks: Vec<Block>,
    pub prose: Vec<(usize, String)>,
}

impl Document {
    /// The document of this path below the root.
    pub fn read(name: &str) -> Result<Document, String> {
        let text = fs::read_to_string(Path::new(ROOT).join(name))
            .map_err(|error| format!("{name}: {error}"))?;
        Document::parse(name, &text)
    }

    pub fn parse(name: &str, text: &str) -> Result<Document, String> {
        let mut document = Document {
            name: name.to_owned(),
            blocks: Vec::new(),
            prose: Vec::new(),
        };
        let mut open: Option<Block> = None;
        for (line, content) in (1..).zip(text.lines()) {
            open = match (open, content.strip_prefix(FENCE)) {
                (None, Some(kind)) => Some(Block {
                    line,
                    kind: kind.to_owned(),
                    content: String::new(),
                }),
                (Some(block), Some("")) => {
                    document.blocks.push(block);
                    None
                }
                (Some(mut block), _) => {
                    block.content += content;
                    block.content.push('\n');
                    Some(block)
                }
                (None, None) => {
                    check_prose(content).map_err(|problem| document.at(line, problem))?;
                    document.prose.push((line, content.to_owned()));
                    None
                }
            };
        }
        match open {
            None => Ok(document),
            Some(block) => Err(document.at(block.line, "the block is not closed")),
        }
    }

    /// A problem with its place.
    pub fn at(&self, line: usize, problem: impl AsRef<str>) -> String {
        format!("{}:{line}: {}", self.name, problem.as_ref())
    }
}

/// Code can be shown in other ways than between plain fences; those would not
/// be seen here, so they are not allowed.
fn check_prose(line: &str) -> Result<(), &'static str> {
    let content = line.trim_start();
    if content.starts_with(FENCE) || content.starts_with("~~~") || content.starts_with("<pre") {
        return Err("only an unindented ``` begins a block");
    }
    if line.starts_with("    ") || line.starts_with('\t') {
        return Err("an indented line would be shown as code");
    }
    Ok(())
}

/// README.md and every document under docs/, in order.
pub fn names() -> Vec<String> {
    let mut names = vec!["README.md".to_owned()];
    add_documents("docs", &mut names);
    names
}

fn add_documents(folder: &str, names: &mut Vec<String>) {
    let entries = fs::read_dir(Path::new(ROOT).join(folder)).unwrap();
    let mut found: Vec<String> = entries
        .map(|entry| entry.unwrap().file_name().into_string().unwrap())
        .map(|name| format!("{folder}/{name}"))
        .collect();
    found.sort();
    for name in found {
        if Path::new(ROOT).join(&name).is_dir() {
            add_documents(&name, names);
        } else if name.ends_with(".md") {
            names.push(name);
        }
    }
}

mod tests {
    use super::{names, Document};

    #[test]
    fn blocks_and_text_are_told_apart() {
        let text = "one\n```console\n$ ls\n\na\n```\ntwo\n```text x\n```\n";
        let document = Document::parse("D.md", text).unwrap();
        let blocks: Vec<_> = document
            .blocks
            .iter()
            .map(|block| (block.line, &block.kind[..], &block.content[..]))
            .collect();
        assert_eq!(blocks, [(2, "console", "$ ls\n\na\n"), (8, "text x", "")]);
        let prose = [(1, "one".to_owned()), (7, "two".to_owned())];
        assert_eq!(document.prose, prose);
    }

    #[test]
    fn code_that_would_not_be_seen_is_refused() {
        for (text, line) in [
            ("a\n```console\n$ ls\n", 2),
            ("a\n\n    $ ls\n", 3),
            ("\t$ ls\n", 1),
            ("~~~console\n$ ls\n~~~\n", 1),
            ("- a\n  ```console\n", 2),
            ("<pre>ls</pre>\n", 1),
        ] {
            let problem = Document::parse("D.md", text).unwrap_err();
            assert!(problem.starts_with(&format!("D.md:{line}: ")), "{problem}");
        }
    }

    #[test]
    fn documents_are_found() {
        let names = names();
        for name in ["README.md", "docs/FORMAT.md", "docs/PERFORMANCE.md"] {
            assert!(names.iter().any(|found| found == name), "{name}");
        }
    }
}
