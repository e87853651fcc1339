//! Rattle's code: its two languages told apart, and the words of its own.

use crate::imports::import_lines;

/// The ghost part of a text, which is Antt: its ghost imports, what stands in
/// the braces of its contracts, and what it hands to the prover, on the lines
/// where they are.
pub fn ghost_part(text: &str) -> String {
    split(text).0
}

/// The rest: code and its imports, without comments.
pub fn plain_part(text: &str) -> String {
    split(text).1
}

/// How a line begins that hands something to the prover: the tactics of a file
/// or a function, with the laws that they may use and the names that they open.
const HANDED: [&str; 2] = ["#[tactic", "#![tactic"];

pub fn is_handed(content: &str) -> bool {
    let content = content.trim_start();
    HANDED.iter().any(|first| content.starts_with(first))
}

/// What a clause of a contract begins with, and what is known of every value
/// of a type.
const CLAUSES: [&str; 3] = ["requires", "ensures", "ghost"];

fn split(text: &str) -> (String, String) {
    let imports = import_lines(text);
    let (mut ghost, mut plain) = (String::new(), String::new());
    let mut clause = Clause::default();
    let mut ghost_import = false;
    let mut handed = false;
    for (line, content) in (1..).zip(text.lines()) {
        ghost_import = content.starts_with("ghost ") || ghost_import && imports.contains(&line);
        handed |= is_handed(content);
        if ghost_import || handed {
            ghost += content;
            ghost_import = ghost_import && !content.ends_with(';');
            handed = handed && !content.ends_with(']');
        } else {
            clause.split_line(without_comment(content), &mut ghost, &mut plain);
        }
        ghost.push('\n');
        plain.push('\n');
    }
    (ghost, plain)
}

/// Where a text stands: ahead of the braces of a clause, or so deep in them.
#[derive(Default)]
struct Clause {
    ahead: bool,
    depth: usize,
}

impl Clause {
    /// Hands out a line.
    fn split_line(&mut self, content: &str, ghost: &mut String, plain: &mut String) {
        let mut rest = content;
        while !rest.is_empty() {
            let (word, after) = rest.split_at(word_length(rest));
            rest = after;
            if self.takes(word) {
                ghost.push_str(word);
            } else {
                plain.push_str(word);
            }
        }
    }

    /// Whether a word stands in the braces of a clause. A clause may have a
    /// name ahead of them, and that of a type a sign behind its name.
    fn takes(&mut self, word: &str) -> bool {
        match (self.depth, word) {
            (0, "{") => self.depth = usize::from(self.ahead),
            (0, _) => {
                let leads = |c: char| is_letter(c) || " :=".contains(c);
                let goes_on = self.ahead && word.chars().all(leads);
                self.ahead = goes_on || CLAUSES.contains(&word);
                return false;
            }
            (1, "}") => (self.depth, self.ahead) = (0, false),
            (_, "{") => {
                self.depth += 1;
                return true;
            }
            (_, "}") => {
                self.depth -= 1;
                return true;
            }
            _ => return true,
        }
        false
    }
}

fn without_comment(content: &str) -> &str {
    content.find("//").map_or(content, |at| &content[..at])
}

/// An imported name of plain code: its line, its path and what the file calls
/// it.
#[derive(Debug, PartialEq)]
pub struct PlainImport {
    pub line: usize,
    pub path: String,
    pub local: String,
}

/// The imports of the plain part: `use a::b::C;`, `use a::b::C as D;`, and
/// `use a::{b, c::{C as D}};`, which may go over several lines.
pub fn plain_imports(plain: &str) -> Vec<PlainImport> {
    let inside = import_lines(plain);
    let lines = (1..).zip(plain.lines());
    let lines = lines.filter(|(line, _)| inside.contains(line));
    let words = lines.flat_map(|(line, content)| {
        let words = words_of_line(content).into_iter();
        words.map(move |word| (line, word))
    });
    let words: Vec<(usize, &str)> = words.collect();
    let statements = words.split(|(_, word)| *word == "use").skip(1);
    statements.flat_map(imports_of_statement).collect()
}

/// The names of one statement, of the words behind its `use`.
fn imports_of_statement(words: &[(usize, &str)]) -> Vec<PlainImport> {
    let mut found = Vec::new();
    // What leads up to the open braces, and the path behind the innermost.
    let mut outer: Vec<String> = Vec::new();
    let mut path: Vec<&str> = Vec::new();
    for &(line, word) in words {
        match word {
            "::" => {}
            "{" => outer.push(path.drain(..).map(|part| format!("{part}::")).collect()),
            "," | "}" | ";" => {
                found.extend(imported(line, &outer.concat(), &path));
                path.clear();
                if word == "}" {
                    outer.pop();
                }
                if word == ";" {
                    break;
                }
            }
            part => path.push(part),
        }
    }
    found
}

/// The name that a path ends with, or that stands behind its `as`; `self` is
/// what leads up to it.
fn imported(line: usize, outer: &str, path: &[&str]) -> Option<PlainImport> {
    let (path, renamed) = match path {
        [path @ .., "as", local] => (path, Some(*local)),
        _ => (path, None),
    };
    let whole = match path {
        [] => return None,
        ["self"] => outer.trim_end_matches("::").to_owned(),
        _ => format!("{outer}{}", path.join("::")),
    };
    let local = renamed.or(whole.rsplit("::").next())?.to_owned();
    let path = whole;
    Some(PlainImport { line, path, local })
}

/// The words of the plain part outside of imports: names, `::`, `..`, and every
/// other sign by itself; quoted bytes are left out.
pub fn plain_words(plain: &str) -> Vec<&str> {
    let imports = import_lines(plain);
    let lines = (1..).zip(plain.lines());
    let kept = lines.filter(|(line, _)| !imports.contains(line));
    kept.flat_map(|(_, content)| words_of_line(content))
        .collect()
}

fn words_of_line(content: &str) -> Vec<&str> {
    let mut words = Vec::new();
    let mut rest = content.trim_start();
    while !rest.is_empty() {
        let (word, after) = rest.split_at(word_length(rest));
        words.push(word);
        rest = after.trim_start();
    }
    words.retain(|word| !word.starts_with('"'));
    words
}

fn is_letter(c: char) -> bool {
    c.is_alphanumeric() || c == '_'
}

fn word_length(rest: &str) -> usize {
    match rest.chars().next() {
        Some('"') => quoted_length(rest),
        Some(':') if rest.starts_with("::") => 2,
        Some('.') if rest.starts_with("..") => 2,
        Some(first) if !is_letter(first) => first.len_utf8(),
        _ => rest.find(|c| !is_letter(c)).unwrap_or(rest.len()),
    }
}

/// The length of quoted text with its quotes; a quote behind `\` is no end.
fn quoted_length(rest: &str) -> usize {
    let mut escaped = false;
    for (at, c) in rest.char_indices().skip(1) {
        if c == '"' && !escaped {
            return at + 1;
        }
        escaped = c == '\\' && !escaped;
    }
    rest.len()
}

/// Whether the words use a name: it is no part of a longer path, no method and
/// no field, and where it is a function or a module, it is called or entered.
pub fn uses(words: &[&str], name: &str) -> bool {
    let is_type = name.starts_with(|c: char| c.is_uppercase());
    (0..words.len()).any(|at| {
        let before = at.checked_sub(1).map_or("", |before| words[before]);
        let after = words.get(at + 1).copied().unwrap_or("");
        let entered = is_type || matches!(after, "(" | "::");
        words[at] == name && !matches!(before, "::" | "." | "fn") && entered
    })
}

mod tests {
    use super::{ghost_part, plain_imports, plain_part, plain_words, uses};

    const TEXT: &str = "\
ghost use a.{b};
use c::D; // use
#[tactic(auto, using(crate::proofs::P::law))]
fn f(x: D)
    requires { x < 2 }
    ensures named { b
  record { x = result } }
{ x }";

    #[test]
    fn contracts_are_told_from_code() {
        let ghost =
            "ghost use a.{b};\n\n#[tactic(auto, using(crate::proofs::P::law))]\n\n x < 2 \n b\n  \
                     record { x = result } \n\n";
        assert_eq!(ghost_part(TEXT), ghost);
        let plain = "\nuse c::D; \n\nfn f(x: D)\n    requires {}\n    ensures named {\n}\n{ x }\n";
        assert_eq!(plain_part(TEXT), plain);
    }

    #[test]
    fn plain_imports_are_read() {
        let found = plain_imports(
            "use c::D; \npub use e::f as g;\nuse h::{\n    i, j::{self, K as L},\n};\nlet use_ = 1;",
        );
        let found: Vec<_> = found
            .iter()
            .map(|import| (import.line, &import.path[..], &import.local[..]))
            .collect();
        let expected = [
            (1, "c::D", "D"),
            (2, "e::f", "g"),
            (4, "h::i", "i"),
            (4, "h::j", "j"),
            (4, "h::j::K", "L"),
        ];
        assert_eq!(found, expected);
    }

    #[test]
    fn a_use_is_told_from_its_likes() {
        let used = |text: &str, name: &str| uses(&plain_words(text), name);
        for (text, name) in [
            ("f(x)", "f"),
            ("f::g(x)", "f"),
            ("let x: D = y", "D"),
            ("D::A", "D"),
        ] {
            assert!(used(text, name), "{text}");
        }
        let unused = [
            ("x.f(y)", "f"),
            ("g::f(x)", "f"),
            ("let f = x", "f"),
            ("fn f(x)", "f"),
            ("E::D", "D"),
            (r#"b"\"D" + 1"#, "D"),
            ("use c::D;", "D"),
        ];
        for (text, name) in unused {
            assert!(!used(text, name), "{text}");
        }
    }
}
