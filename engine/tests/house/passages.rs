//! A page as its cells and paragraphs, and these as names, paths and words.

use crate::tree::Source;

/// A cell of a table or a paragraph, and the line where it begins.
pub struct Passage {
    line: usize,
    text: String,
}

pub fn passages(page: &Source) -> Vec<Passage> {
    let mut passages: Vec<Passage> = Vec::new();
    let mut open = false;
    for (line, content) in page.lines() {
        let is_row = content.starts_with('|');
        match passages.last_mut().filter(|_| open) {
            Some(paragraph) if !is_row => paragraph.text += &format!("\n{content}"),
            _ if is_row => passages.extend(content.split('|').map(|cell| passage(line, cell))),
            _ => passages.push(passage(line, content)),
        }
        open = !content.is_empty() && !is_row;
    }
    passages
}

fn passage(line: usize, text: &str) -> Passage {
    Passage {
        line,
        text: text.trim().to_owned(),
    }
}

/// A part of a passage and its line.
#[derive(Clone, Copy, Debug, PartialEq)]
pub struct Part<'a> {
    pub line: usize,
    pub kind: Kind<'a>,
}

#[derive(Clone, Copy, Debug, PartialEq)]
pub enum Kind<'a> {
    /// Code in backticks.
    Name(&'a str),
    Path(&'a str),
    Word(&'a str),
    /// The end of what belongs together.
    Stop,
}

impl<'a> Part<'a> {
    pub fn name(&self) -> Option<&'a str> {
        match self.kind {
            Kind::Name(name) => Some(name),
            _ => None,
        }
    }

    /// Whether it is one of these words.
    pub fn says(&self, words: &[&str]) -> bool {
        matches!(self.kind, Kind::Word(word) if words.contains(&word))
    }
}

impl Passage {
    pub fn parts(&self) -> Vec<Part<'_>> {
        let mut parts = Vec::new();
        let mut line = self.line;
        for (at, piece) in self.text.split('`').enumerate() {
            if at % 2 == 1 {
                let kind = Kind::Name(piece);
                parts.push(Part { line, kind });
                continue;
            }
            for (row, content) in piece.split('\n').enumerate() {
                line += usize::from(row > 0);
                let kinds = content.split(' ').flat_map(kinds_of_word);
                parts.extend(kinds.map(|kind| Part { line, kind }));
            }
        }
        parts
    }
}

/// A word of running text without its punctuation, and a stop where it ends
/// something.
fn kinds_of_word(word: &str) -> Vec<Kind<'_>> {
    let bare = word.trim_start_matches(['(', '"', '*']);
    let bare = bare.trim_end_matches([',', ';', ':', '.', ')', '"', '*']);
    let is_path = bare.contains('/') || bare.ends_with(".antt") || bare.ends_with(".rt");
    let mut kinds = match bare {
        "" => Vec::new(),
        path if is_path => vec![Kind::Path(path)],
        word => vec![Kind::Word(word)],
    };
    if word.ends_with([';', ':', '.']) {
        kinds.push(Kind::Stop);
    }
    kinds
}

mod tests {
    use super::{passages, Kind};
    use crate::tree::Source;

    #[test]
    fn cells_and_paragraphs_are_told_apart() {
        let page = Source::of("P.md", "one\ntwo\n\n| a | b |\nthree");
        let found = passages(&page);
        let said = found.iter().filter(|passage| !passage.text.is_empty());
        let said: Vec<_> = said
            .map(|passage| (passage.line, passage.text.trim_end()))
            .collect();
        assert_eq!(said, [(1, "one\ntwo"), (4, "a"), (4, "b"), (5, "three")]);
    }

    #[test]
    fn names_paths_and_words_are_told_apart() {
        let page = Source::of("P.md", "`a`, b\n(c/D.antt);");
        let found = passages(&page);
        let parts: Vec<_> = found[0]
            .parts()
            .iter()
            .map(|part| (part.line, part.kind))
            .collect();
        let expected = [
            (1, Kind::Name("a")),
            (1, Kind::Word("b")),
            (2, Kind::Path("c/D.antt")),
            (2, Kind::Stop),
        ];
        assert_eq!(parts, expected);
    }
}
