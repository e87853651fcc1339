//! docs/PROOFS.md names what stands: every path leads to a file or a folder
//! below crates/, and every name in backticks is declared, in the file that is
//! named behind it, if one is. A path may be short for one in a folder of the
//! path before it.

use crate::names::declared;
use crate::passages::{passages, Kind, Part};
use crate::tree::{expect_none, files, sources, Source};
use std::collections::HashSet;

/// What stands in backticks and is Rattle's or the page's own.
const OTHER_CODE: [&str; 5] = ["requires", "&mut", "axioms=", "code", "crates/"];

/// What the page may name: the files below crates/, and what they declare.
struct Tree {
    files: Vec<String>,
    sources: Vec<Source>,
}

impl Tree {
    fn is_file(&self, place: &str) -> bool {
        self.files.iter().any(|file| file == place)
    }

    fn exists(&self, place: &str) -> bool {
        let below = format!("{place}/");
        self.is_file(place) || self.files.iter().any(|file| file.starts_with(&below))
    }

    /// What is declared in a file, or in all the files of a folder.
    fn declared_at(&self, place: &str) -> HashSet<String> {
        let below = format!("{place}/");
        let inside = |source: &&Source| source.path == place || source.path.starts_with(&below);
        self.sources
            .iter()
            .filter(inside)
            .flat_map(declared)
            .collect()
    }

    /// The crates that some parts begin with: of "kind_send, kind_take and kind_look", three.
    fn crates_of<'a>(&self, parts: &[Part<'a>]) -> Vec<&'a str> {
        let mut found = Vec::new();
        for part in parts {
            match part.kind {
                Kind::Word("and") => {}
                Kind::Word(word) if self.exists(&format!("crates/{word}")) => found.push(word),
                _ => break,
            }
        }
        found
    }

    /// Where a path leads: into several crates if they are named behind it, else
    /// from crates/, or from a folder of the path before.
    fn places(&self, path: &str, behind: &[Part], before: Option<&String>) -> Vec<String> {
        let path = path.trim_end_matches('/');
        let named = match behind.split_first() {
            Some((first, rest)) if first.says(&["in", "of"]) => self.crates_of(rest),
            _ => Vec::new(),
        };
        if named.is_empty() {
            return vec![self.place(path, before)];
        }
        let place = |name: &&str| format!("crates/{name}/{path}");
        named.iter().map(place).collect()
    }

    fn place(&self, path: &str, before: Option<&String>) -> String {
        let whole = format!("crates/{path}");
        if self.exists(&whole) {
            return whole;
        }
        let mut folders = Vec::from_iter(before.map(|place| &place[..]));
        while let Some((outer, _)) = folders.last().and_then(|inner| inner.rsplit_once('/')) {
            folders.push(outer);
        }
        let folders = folders.into_iter();
        let mut places = folders.map(|folder| format!("{folder}/{path}"));
        places.find(|place| self.exists(place)).unwrap_or(whole)
    }
}

/// The names that lead up to a path and are declared there: "`a` and `b` of
/// PATH", "`a` in FILE", "`a` (FILE)".
fn names_before<'a>(parts: &[Part<'a>], is_file: bool) -> Vec<&'a str> {
    let names = match parts.split_last() {
        Some((last, names)) if last.says(&["of"]) => names,
        Some((last, names)) if is_file && last.says(&["in"]) => names,
        _ if is_file => parts,
        _ => &[],
    };
    let joined = |part: &&Part| part.name().is_some() || part.says(&["and"]);
    let names = names.iter().rev().take_while(joined);
    names.filter_map(Part::name).collect()
}

/// Whether all names of a path are declared that the page writes as code: of
/// `Broker::fresh`, two.
fn is_declared(code: &str, known: &HashSet<String>) -> bool {
    OTHER_CODE.contains(&code) || code.split("::").all(|name| known.contains(name))
}

fn findings(page: &Source, tree: &Tree) -> Vec<String> {
    let everything = tree.declared_at("crates");
    let mut findings = Vec::new();
    for passage in passages(page) {
        let parts = passage.parts();
        let mut before = None;
        for (at, part) in parts.iter().enumerate() {
            let unknown = part.name().filter(|name| !is_declared(name, &everything));
            let unknown = unknown.map(|name| format!("`{name}` is declared nowhere"));
            findings.extend(unknown.map(|what| page.at(part.line, what)));
            if let Kind::Path(path) = part.kind {
                let places = tree.places(path, &parts[at + 1..], before.as_ref());
                let wrong = places
                    .iter()
                    .flat_map(|place| wrong_at(place, &parts[..at], tree));
                findings.extend(wrong.map(|what| page.at(part.line, what)));
                let stands = places.into_iter().find(|place| tree.exists(place));
                before = stands.or(before);
            }
        }
    }
    findings
}

/// What is wrong with a place that a path names, and with the names before it.
fn wrong_at(place: &str, before: &[Part], tree: &Tree) -> Vec<String> {
    if !tree.exists(place) {
        return vec![format!("there is no {place}")];
    }
    let known = tree.declared_at(place);
    let names = names_before(before, tree.is_file(place)).into_iter();
    let unknown = names.filter(|name| !is_declared(name, &known));
    unknown
        .map(|name| format!("`{name}` is not declared in {place}"))
        .collect()
}

#[test]
fn proofs_page_names_what_stands() {
    let tree = Tree {
        files: files(),
        sources: sources(&[".antt", ".rt"]),
    };
    expect_none(&findings(&Source::read("docs/PROOFS.md"), &tree));
}

mod tests {
    use super::{findings, Tree};
    use crate::tree::Source;

    fn tree() -> Tree {
        let sources = [
            ("crates/a/specs/Step.antt", "pub one : A\npub two : A"),
            ("crates/a/specs/Laws/More.antt", "pub three : A"),
            ("crates/b/src/lib.rt", "pub fn four() {"),
        ];
        let sources = sources.map(|(path, text)| Source::of(path, text));
        let others = ["crates/a/must-fail/x", "crates/b/must-fail/y"].map(str::to_owned);
        Tree {
            files: sources
                .iter()
                .map(|source| source.path.clone())
                .chain(others)
                .collect(),
            sources: sources.into(),
        }
    }

    fn found(text: &str) -> Vec<String> {
        findings(&Source::of("P.md", text), &tree())
    }

    #[test]
    fn what_stands_passes() {
        for text in [
            "`one` and `two` of a/specs/Step.antt, `requires`; `four` (b/src/lib.rt).",
            "a/specs/Step.antt, `three` in Laws/More.antt: `one`, `two` of Step.antt",
            "a/specs/Laws/More.antt, Step.antt; `four` (a/must-fail); `four` of b/src/",
            "must-fail/ of a and b",
        ] {
            assert_eq!(found(text), [""; 0], "{text}");
        }
    }

    #[test]
    fn what_does_not_stand_is_found() {
        for (text, what) in [
            ("a\n`five`", "2: `five` is declared nowhere"),
            ("a/specs/No.antt", "1: there is no crates/a/specs/No.antt"),
            (
                "a/specs/Step.antt, No.antt, Step.antt",
                "1: there is no crates/No.antt",
            ),
            (
                "a/specs/Step.antt, No.antt",
                "1: there is no crates/No.antt",
            ),
            (
                "`one`, `three` of a/specs/Step.antt",
                "1: `three` is not declared in crates/a/specs/Step.antt",
            ),
            (
                "`one` (b/src/lib.rt)",
                "1: `one` is not declared in crates/b/src/lib.rt",
            ),
            ("src/ of a and b", "1: there is no crates/a/src"),
        ] {
            assert_eq!(found(text), [format!("P.md:{what}")]);
        }
    }
}
