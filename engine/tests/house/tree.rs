//! The files of the tree.

use std::fs;
use std::path::Path;

/// The repository's root.
pub const ROOT: &str = concat!(env!("CARGO_MANIFEST_DIR"), "/..");

/// A file: its path below the root, and its text.
pub struct Source {
    pub path: String,
    pub text: String,
}

impl Source {
    pub fn read(path: &str) -> Source {
        let text = fs::read_to_string(Path::new(ROOT).join(path))
            .unwrap_or_else(|error| panic!("{path}: {error}"));
        Source::of(path, &text)
    }

    pub fn of(path: &str, text: &str) -> Source {
        Source {
            path: path.to_owned(),
            text: text.to_owned(),
        }
    }

    /// The lines, counted from 1.
    pub fn lines(&self) -> impl Iterator<Item = (usize, &str)> {
        (1..).zip(self.text.lines())
    }

    /// A finding with its place.
    pub fn at(&self, line: usize, what: impl AsRef<str>) -> String {
        format!("{}:{line}: {}", self.path, what.as_ref())
    }
}

/// Every file below crates/ whose name has one of these endings, in order.
pub fn sources(endings: &[&str]) -> Vec<Source> {
    let paths = files();
    let has_ending = |path: &&String| endings.iter().any(|ending| path.ends_with(ending));
    let found = paths.iter().filter(has_ending);
    found.map(|path| Source::read(path)).collect()
}

/// The paths of all files below crates/, in order.
pub fn files() -> Vec<String> {
    let mut paths = Vec::new();
    add_files("crates", &mut paths);
    paths
}

/// README.md, and every page below docs/, in order.
pub fn pages() -> Vec<Source> {
    let mut paths = vec!["README.md".to_owned()];
    add_files("docs", &mut paths);
    let pages = paths.iter().filter(|path| path.ends_with(".md"));
    pages.map(|path| Source::read(path)).collect()
}

/// What a folder holds, in order.
pub fn entries(folder: &str) -> Vec<String> {
    let entries = fs::read_dir(Path::new(ROOT).join(folder))
        .unwrap_or_else(|error| panic!("{folder}: {error}"));
    let name = |entry: fs::DirEntry| entry.file_name().into_string().unwrap();
    let mut names: Vec<String> = entries.map(|entry| name(entry.unwrap())).collect();
    names.sort();
    names
}

pub fn is_folder(path: &str) -> bool {
    Path::new(ROOT).join(path).is_dir()
}

/// What is built in a folder, and is no source: cargo's and the kit's.
const BUILT: [&str; 2] = ["target", "out"];

fn add_files(folder: &str, paths: &mut Vec<String>) {
    for name in entries(folder) {
        let path = format!("{folder}/{name}");
        if !is_folder(&path) {
            paths.push(path);
        } else if !BUILT.contains(&&name[..]) {
            add_files(&path, paths);
        }
    }
}

/// Fails with the whole list, where anything was found.
pub fn expect_none(findings: &[String]) {
    let list = findings.join("\n");
    assert!(findings.is_empty(), "{} findings:\n{list}", findings.len());
}

mod tests {
    use super::{expect_none, pages, sources, Source};

    #[test]
    fn files_are_found_by_their_endings() {
        let found = sources(&[".rt", ".antt"]);
        let has = |path: &str| found.iter().any(|source| source.path == path);
        assert!(has("crates/steps/src/lib.rt") && has("crates/protocol/specs/Step.antt"));
        assert!(!has("crates/example_panel/stdout"));
        assert!(found.iter().all(|source| !source.path.contains("/out/")));
    }

    #[test]
    fn pages_are_found_in_all_folders() {
        let found: Vec<String> = pages().into_iter().map(|page| page.path).collect();
        for path in [
            "README.md",
            "docs/FORMAT.md",
            "docs/changes/01-made-up-pass.md",
        ] {
            assert!(found.iter().any(|page| page == path), "{path}");
        }
        assert!(found.iter().all(|path| path.ends_with(".md")));
    }

    #[test]
    #[should_panic(expected = "1 findings:\na/b:3: spoiled")]
    fn findings_are_shown() {
        expect_none(&[Source::of("a/b", "").at(3, "spoiled")]);
    }
}
