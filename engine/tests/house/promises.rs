//! Every public law is cited, but for the promises, which stand on one page,
//! crates/promises/specs/Promises.antt; docs/PROMISES.md lists them, each with
//! the laws that it cites, and the entries of the library with the functions
//! that say in full what they promise; and it lists nothing else. A law that
//! was a step of a proof which the check finds by itself, or of code that is
//! written otherwise now, is cited no more: such laws are listed in `found.rs`.

use crate::citations::{antt_part, cited, known, paths, whole_name};
use crate::found::{FOUND, KEPT};
use crate::imports::words_outside;
use crate::laws::{laws, Law};
use crate::table::tables;
use crate::tree::{expect_none, sources, Source};
use crate::words::{head, signs, used};
use std::collections::HashSet;

const PAGE: &str = "docs/PROMISES.md";
const PROMISES: &str = "crates/promises/specs/Promises.antt";
const ENTRIES: &str = "crates/promises/src/lib.rt";
const PROMISE: &str = "| Promise | What it promises | Laws |";
const ENTRY: &str = "| Entry | Function | What it promises |";

/// A public law: its place, its whole name, and whether something cites it.
struct Public {
    found_at: String,
    name: String,
    cited: bool,
}

fn public_laws(tree: &[Source]) -> Vec<Public> {
    let elsewhere: HashSet<String> = tree.iter().flat_map(cited).collect();
    let lawful = tree.iter().filter(|source| has_laws(&source.path));
    lawful
        .flat_map(|source| laws_of_file(source, &elsewhere))
        .collect()
}

/// Whether a file has laws to cite: what is below specs/, and the laws below
/// proofs/, by which a wrong definition is refused. A worked example is none: it
/// stands for itself, and holds the definitions that it computes. Nor is a
/// promise.
fn has_laws(path: &str) -> bool {
    let parts: Vec<&str> = path.split('/').collect();
    match parts[..] {
        ["crates", "test_worked", ..] | ["crates", _, "specs" | "proofs", "Worked", ..] => false,
        ["crates", "promises", "specs", "Promises.antt"] => false,
        ["crates", _, "specs", .., file] => file.ends_with(".antt"),
        ["crates", _, "proofs", "Laws", .., file] => file.ends_with(".antt"),
        _ => false,
    }
}

fn laws_of_file(source: &Source, elsewhere: &HashSet<String>) -> Vec<Public> {
    let words = words_outside(&source.text);
    let words = used(&words);
    let near = |law: &Law| {
        let mut outside = words.iter().filter(|word| !law.lines.contains(&word.line));
        outside.any(|word| signs(&law.name).contains(&head(word.text)))
    };
    let public = |law: &Law| {
        let name = whole_name(&source.path, &law.name);
        Public {
            found_at: source.at(law.lines.start, format!("'{}'", law.name)),
            cited: near(law) || elsewhere.contains(&name),
            name,
        }
    };
    laws(&source.text).iter().map(public).collect()
}

/// The rows of the table with a header.
fn rows(page: &Source, header: &str) -> Vec<Vec<String>> {
    let found = tables(page.text.lines()).into_iter();
    let rows = found.filter(|table| table.header == header);
    rows.flat_map(|table| table.rows).collect()
}

/// What is written between backquotes in a cell.
fn quoted(cell: &str) -> Vec<&str> {
    cell.split('`').skip(1).step_by(2).collect()
}

/// The promises that are not listed in their order, and the laws of a row that
/// its promise does not cite.
fn unlisted(page: &Source, promises: &Source) -> Vec<String> {
    let stated = laws(&promises.text);
    let rows = rows(page, PROMISE);
    let names: Vec<&str> = rows.iter().flat_map(|row| quoted(&row[0])).collect();
    let expected: Vec<&str> = stated.iter().map(|law| &law.name[..]).collect();
    let mut findings = Vec::new();
    if names != expected {
        findings.push(format!("{PAGE} lists {names:?}, stated are {expected:?}"));
    }
    for (row, law) in rows.iter().zip(&stated) {
        let cites = names_within(promises, law);
        let missing = quoted(&row[2])
            .into_iter()
            .filter(|name| !cites.contains(*name));
        findings.extend(missing.map(|name| format!("'{}' does not cite '{name}'", law.name)));
    }
    findings
}

/// The names of other files that a law cites, without their files.
fn names_within(source: &Source, law: &Law) -> HashSet<String> {
    let text = antt_part(source);
    let known = known(&text);
    let words = words_outside(&text);
    let within = used(&words)
        .into_iter()
        .filter(|word| law.lines.contains(&word.line));
    let whole = within.flat_map(|word| paths(&word, &known));
    whole
        .filter_map(|name| name.rsplit('.').next().map(str::to_owned))
        .collect()
}

/// The public functions of a source, each with its text.
fn functions(source: &Source) -> Vec<(&str, &str)> {
    let parts = source.text.split("\npub fn ").skip(1);
    parts
        .filter_map(|part| Some((part.split('(').next()?, part.split("\n}\n").next()?)))
        .collect()
}

/// The functions that are not listed in their order, and those that do not call
/// the entry of their row, or that ensure nothing.
fn unlisted_entries(page: &Source, entries: &Source) -> Vec<String> {
    let rows = rows(page, ENTRY);
    let names: Vec<&str> = rows.iter().flat_map(|row| quoted(&row[1])).collect();
    let functions = functions(entries);
    let expected: Vec<&str> = functions.iter().map(|(name, _)| *name).collect();
    let mut findings = Vec::new();
    if names != expected {
        findings.push(format!("{PAGE} lists {names:?}, there are {expected:?}"));
    }
    for (row, (name, text)) in rows.iter().zip(&functions) {
        let body = text.split("\n{\n").nth(1).unwrap_or("");
        let called = quoted(&row[0])
            .iter()
            .all(|entry| body.contains(&format!("{entry}(")));
        if !called || !text.contains("ensures") {
            findings.push(format!("'{name}' does not say what '{}' promises", row[0]));
        }
    }
    findings
}

/// The laws that nothing cites and that are not listed, and what is listed and
/// is no law or is cited.
fn uncited(laws: &[Public], listed: &[&str]) -> Vec<String> {
    let uncited = laws.iter().filter(|law| !law.cited);
    let (known, others): (Vec<&Public>, Vec<&Public>) =
        uncited.partition(|law| listed.contains(&&law.name[..]));
    let others = others.iter().map(|law| &law.found_at);
    let mut findings: Vec<String> = others
        .map(|law| format!("{law} is cited nowhere, and is no promise"))
        .collect();
    let is_known = |name: &&&str| known.iter().any(|law| law.name == **name);
    let idle = listed.iter().filter(|name| !is_known(name));
    findings.extend(idle.map(|name| format!("'{name}' is listed, and no law that nothing cites")));
    findings
}

#[test]
fn every_public_law_is_cited() {
    let laws = public_laws(&sources(&[".antt", ".rt"]));
    expect_none(&uncited(&laws, &[&FOUND[..], &KEPT[..]].concat()));
}

#[test]
fn every_promise_is_listed_with_its_laws() {
    let page = Source::read(PAGE);
    expect_none(&unlisted(&page, &Source::read(PROMISES)));
    expect_none(&unlisted_entries(&page, &Source::read(ENTRIES)));
}

mod tests {
    use super::{has_laws, public_laws, uncited, unlisted, unlisted_entries};
    use crate::tree::Source;

    fn tree() -> [Source; 3] {
        let law = "pub one : A\none = one\n\npub two : A\ntwo = one\n\npub three : A\nthree = x";
        let same_names = "pub two : A\ntwo = x\npub four : A\nfour = two";
        let proof = "use Rattle.a.specs.Laws.{three}\nx = three";
        [
            Source::of("crates/a/specs/Laws.antt", law),
            Source::of("crates/b/specs/Laws.antt", same_names),
            Source::of("crates/b/proofs/x/Answers.antt", proof),
        ]
    }

    #[test]
    fn uncited_laws_are_found() {
        let laws = public_laws(&tree());
        let nowhere = "is cited nowhere, and is no promise";
        let [two, four] = [
            format!("crates/a/specs/Laws.antt:4: 'two' {nowhere}"),
            format!("crates/b/specs/Laws.antt:3: 'four' {nowhere}"),
        ];
        assert_eq!(uncited(&laws, &[]), [&two[..], &four]);
        assert_eq!(uncited(&laws, &["a.specs.Laws.two"]), [&four[..]]);
        let idle = |name: &str| format!("'{name}' is listed, and no law that nothing cites");
        let listed = ["a.specs.Laws.two", "b.specs.Laws.four", "a.specs.Laws.one"];
        assert_eq!(uncited(&laws, &listed), [idle("a.specs.Laws.one")]);
        let listed = ["a.specs.Laws.two", "b.specs.Laws.four", "a.specs.Laws.no"];
        assert_eq!(uncited(&laws, &listed), [idle("a.specs.Laws.no")]);
    }

    const STATED: &str =
        "use Rattle.a.specs.B.{c, d}\npub one : A\none = c\n\npub two : A\ntwo = refl";

    fn listed(rows: &str) -> Vec<String> {
        let header = "| Promise | What it promises | Laws |\n|---|---|---|\n";
        let page = Source::of("P.md", &format!("{header}{rows}"));
        unlisted(&page, &Source::of("crates/p/specs/P.antt", STATED))
    }

    #[test]
    fn promises_are_held_to_their_list() {
        let good = "| `one` | a | `c` of a/specs/B.antt |\n| `two` | b | |";
        assert!(listed(good).is_empty());
        let of_another_law = "| `one` | a | `d` |\n| `two` | b | |";
        assert_eq!(listed(of_another_law), ["'one' does not cite 'd'"]);
        assert_eq!(listed("| `one` | a | `c` |").len(), 1);
        assert_eq!(listed("| `two` | b | |\n| `one` | a | `c` |").len(), 2);
    }

    #[test]
    fn entries_are_held_to_their_list() {
        let header = "| Entry | Function | What it promises |\n|---|---|---|\n";
        let source = "\npub fn f(a: u8)\n    ensures { x }\n{\n    g(a)\n}\n";
        let source = Source::of("crates/p/src/lib.rt", source);
        let found = |rows: &str| {
            let page = Source::of("P.md", &format!("{header}{rows}"));
            unlisted_entries(&page, &source).len()
        };
        assert_eq!(found("| `g` of k | `f` | a |"), 0);
        assert_eq!(found("| `h` of k | `f` | a |"), 1);
        assert_eq!(found(""), 1);
    }

    #[test]
    fn worked_examples_and_promises_are_told_from_laws() {
        for path in [
            "crates/a/specs/Laws/B.antt",
            "crates/a/specs/C.antt",
            "crates/a/proofs/Laws/B.antt",
            "crates/a/proofs/Laws/B/C.antt",
        ] {
            assert!(has_laws(path), "{path}");
        }
        for path in [
            "crates/a/specs/Worked/B.antt",
            "crates/a/proofs/Worked/B.antt",
            "crates/test_worked/specs/B.antt",
            "crates/promises/specs/Promises.antt",
            "crates/a/proofs/f/Answers.antt",
            "crates/a/src/lib.rt",
        ] {
            assert!(!has_laws(path), "{path}");
        }
    }
}
