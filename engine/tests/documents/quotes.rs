//! Blocks that show a file of the repository, or lines of one.

use crate::document::{Block, ROOT};
use std::fs;
use std::path::Path;

/// The kinds whose lines stand in the file that the fence names.
const SOURCES: [&str; 3] = ["rust", "rattle", "antt"];

/// Whether a block of kind `KIND FILE` shows what is in the file.
pub fn check(block: &Block) -> Result<(), String> {
    let kinds = SOURCES.join(" FILE, ");
    let unknown = format!(
        "a block is console, text FILE, {kinds} FILE, and not '{}'",
        block.kind
    );
    let (kind, file) = block.kind.split_once(' ').ok_or(unknown.clone())?;
    let whole = kind == "text";
    if !whole && !SOURCES.contains(&kind) {
        return Err(unknown);
    }
    let content = fs::read_to_string(Path::new(ROOT).join(file))
        .map_err(|error| format!("{file}: {error}"))?;
    let shown = if whole {
        content == block.content
    } else {
        has_lines(&content, &block.content)
    };
    shown
        .then_some(())
        .ok_or(format!("{file} does not have these lines"))
}

/// Whether some lines, at least one, stand together in a text.
fn has_lines(text: &str, lines: &str) -> bool {
    !lines.is_empty() && format!("\n{text}").contains(&format!("\n{lines}"))
}

mod tests {
    use super::check;
    use crate::document::Block;

    fn quoted(kind: &str, content: &str) -> Result<(), String> {
        check(&Block {
            line: 1,
            kind: kind.to_owned(),
            content: content.to_owned(),
        })
    }

    const RANK: &str = "pub struct Rank(pub u8);\n\nimpl Rank {\n";

    #[test]
    fn lines_of_a_file_pass() {
        assert_eq!(quoted("rust engine/src/names.rs", RANK), Ok(()));
        assert_eq!(quoted("text .gitignore", "target/\nout/\n"), Ok(()));
    }

    #[test]
    fn anything_else_fails() {
        for (kind, content) in [
            ("rust engine/src/names.rs", "pub struct Rank(pub u16);\n"),
            ("rust engine/src/names.rs", "struct Rank(pub u8);\n"),
            ("rust engine/src/names.rs", "pub struct Rank\n"),
            ("rust engine/src/names.rs", ""),
            ("rust engine/src/none.rs", RANK),
            ("rust", RANK),
            ("text engine/src/names.rs", RANK),
            ("text .gitignore", "target\nout\n"),
            ("text .gitignore", "out/\n"),
            ("text", "target/\n"),
            ("python engine/src/names.rs", RANK),
            ("", "target/\n"),
        ] {
            assert!(quoted(kind, content).is_err(), "{kind}: {content}");
        }
    }
}
