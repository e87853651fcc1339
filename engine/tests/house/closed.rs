//! The lower part is closed. Paper 01: "a lower crate promises pair order and
//! places; the step crate above cites only that promise." So a file above opens
//! nothing of it by name, and of its laws cites the promise alone. One name
//! opens all its operations, for what computes a run: worked examples, which no
//! law and no proof cites, and the computed statements below.

use crate::citations::{antt_part, cited, known, paths, whole_name, without_package};
use crate::tree::{expect_none, sources, Source};
use crate::words::{words, Word};
use std::collections::HashSet;

/// What the crates of the lower part begin with.
const LOWER: &str = "transit";

/// The name that opens its operations.
const OPENING: &str = "transit.specs.Opened.opened_unread";

/// The files of its laws that are the promise, as docs/PROOFS.md says too.
const PROMISE: [&str; 5] = ["Operations", "Removed", "Promise", "Order", "Pairs"];

/// What is computed outside of the worked examples: a step, paper 01's edges,
/// values and listing, and the runs on the page of promises.
const COMPUTED: [&str; 8] = [
    "protocol.specs.Laws.Opened.opened",
    "protocol.proofs.Laws.Edges.edges_hold",
    "protocol.proofs.Laws.Values.values_hold",
    "print_run.proofs.Shown.shown",
    "print_run.proofs.Shown.prints_shown",
    "print_run.proofs.Listing.listing_prints",
    "promises.specs.Promises.edges_print",
    "promises.specs.Promises.kinds_print",
];

/// What is computed of a worked example, and is no law: the listing of paper 01.
const LISTING: &str = "print_run.proofs.Listing.";

/// How a line begins that hands on a name together with the right to open it.
const HANDS_ON: &str = "unfoldable pub use ";

/// A declaration that opens others: its line, its whole name and theirs.
struct Opener {
    line: usize,
    name: String,
    opened: Vec<String>,
}

/// The declarations of a file with an `unfolding` line, its expressions
/// `unfold .. in ..`, and what it has the prover open, `unfolding(..)`.
fn openers(source: &Source) -> Vec<Opener> {
    let text = antt_part(source);
    let known = known(&text);
    let whole = |word: &Word| {
        let imported = paths(word, &known)
            .pop()
            .or_else(|| without_package(word.text));
        imported.unwrap_or_else(|| whole_name(&source.path, word.text))
    };
    let words = words(&text);
    let opens = |at: &usize| matches!(words[*at].text, "unfolding" | "unfold");
    let opener = |at: usize| {
        let names = names_behind(&text, &words, at);
        let next = words.get(at + 1 + names.len());
        let line = words[at].line;
        let name = match names.first().map(|word| word.text) {
            Some("(") => format!("line {line}"),
            _ => next.map_or("", |word| word.text).to_owned(),
        };
        let names = names.iter().filter(|word| !["(", ","].contains(&word.text));
        Opener {
            line,
            name: whole_name(&source.path, &name),
            opened: names.map(whole).collect(),
        }
    };
    (0..words.len()).filter(opens).map(opener).collect()
}

/// The names behind `unfolding`, which go on as long as lines are further to the
/// right, and then the declaration's name follows; or those from `unfold` to
/// `in`; or those in brackets, with the one that opens.
fn names_behind<'a, 'b>(text: &str, words: &'b [Word<'a>], at: usize) -> &'b [Word<'a>] {
    let lines: Vec<&str> = text.lines().collect();
    let indent = |line: usize| lines[line - 1].len() - lines[line - 1].trim_start().len();
    let opens = words[at];
    let behind = &words[at + 1..];
    let bracket = behind.first().is_some_and(|word| word.text == "(");
    let ends = |word: &Word| match opens.text {
        "unfold" => word.text == "in",
        _ if bracket => word.text == ")",
        _ => word.line > opens.line && indent(word.line) <= indent(opens.line),
    };
    &behind[..behind.iter().position(ends).unwrap_or(behind.len())]
}

fn is_lower(name: &str) -> bool {
    name.starts_with(LOWER)
}

fn is_above(source: &&Source) -> bool {
    !is_lower(&whole_name(&source.path, ""))
}

/// Whether a whole name, of a file or of what it declares, is of a worked
/// example, and whether it is of a law or of a proof.
fn is_worked(name: &str) -> bool {
    let parts: Vec<&str> = name.split('.').collect();
    matches!(parts[..], [_, "specs" | "proofs", "Worked", ..])
}

fn is_proof(name: &str) -> bool {
    let parts: Vec<&str> = name.split('.').collect();
    let proves = matches!(parts[..], [_, "specs", "Laws", ..] | [_, "proofs", ..]);
    proves && !is_worked(name) && !name.starts_with(LISTING)
}

/// What opens the lower part's operations, itself or through others.
fn openings(tree: &[Source]) -> HashSet<String> {
    let openers: Vec<Opener> = tree.iter().filter(is_above).flat_map(openers).collect();
    let mut found = HashSet::from([OPENING.to_owned()]);
    loop {
        let opens = |opener: &&Opener| opener.opened.iter().any(|name| found.contains(name));
        let more = openers.iter().filter(opens);
        let more: Vec<String> = more.map(|opener| opener.name.clone()).collect();
        let before = found.len();
        found.extend(more);
        if found.len() == before {
            return found;
        }
    }
}

/// What the files above open of the lower part and may not.
fn opened(tree: &[Source]) -> Vec<String> {
    let openings = openings(tree);
    let mut found = Vec::new();
    for source in tree.iter().filter(is_above) {
        for opener in openers(source) {
            let own = opener.opened.iter().filter(|name| is_lower(name));
            let own = own.filter(|name| *name != OPENING);
            found.extend(own.map(|name| source.at(opener.line, format!("'{name}' is opened"))));
            let name = &opener.name[..];
            let computes = is_worked(name) || COMPUTED.contains(&name);
            if openings.contains(name) && !computes {
                found.push(source.at(opener.line, format!("'{name}' opens the lower part")));
            }
        }
        let lines = source.lines();
        let handing = lines.filter(|(_, content)| content.starts_with(HANDS_ON));
        found.extend(handing.map(|(line, _)| source.at(line, "the right to open is handed on")));
    }
    found
}

/// What the files above cite of its laws beside the promise, and what laws and
/// proofs cite of worked examples.
fn cited_beside(tree: &[Source]) -> Vec<String> {
    let beside = |name: &str| match name.split('.').collect::<Vec<_>>()[..] {
        [owner, "specs" | "proofs", "Laws", file, ..] => {
            is_lower(owner) && !PROMISE.contains(&file)
        }
        _ => false,
    };
    let mut found = Vec::new();
    for source in tree.iter().filter(is_above) {
        let proves = is_proof(&whole_name(&source.path, ""));
        let names = cited(source).into_iter();
        let names = names.filter(|name| beside(name) || proves && is_worked(name));
        found.extend(names.map(|name| format!("{}: '{name}' is cited", source.path)));
    }
    found.sort();
    found
}

#[test]
fn nothing_above_opens_the_lower_part() {
    expect_none(&opened(&sources(&[".antt", ".rt"])));
}

#[test]
fn the_promise_alone_is_cited_above() {
    expect_none(&cited_beside(&sources(&[".antt", ".rt"])));
}

#[test]
fn what_is_computed_opens_the_lower_part() {
    let openings = openings(&sources(&[".antt"]));
    let idle = COMPUTED.iter().filter(|name| !openings.contains(**name));
    let idle: Vec<String> = idle.map(|name| format!("'{name}' opens nothing")).collect();
    expect_none(&idle);
}

mod tests {
    use super::{cited_beside, opened, openings};
    use crate::tree::Source;

    const IMPORTS: &str = "use Rattle.transit.specs.Opened.{opened_unread}\n\
        use Rattle.transit.specs.Unread\nuse Rattle.transit.specs.Unread.{appended as put}\n";

    fn above(path: &str, text: &str) -> Source {
        Source::of(path, &format!("{IMPORTS}{text}"))
    }

    #[test]
    fn names_of_the_lower_part_are_found() {
        let text = "a : A\nunfolding b\n    put\na = b\n\n\
            module _ where\n  c : A\n  unfolding Unread.removed d\n  c = d\n\n\
            e : A\ne = unfold f Rattle.transit.specs.Unread.head in g put\n";
        let tree = [
            above("crates/x/specs/X.antt", text),
            above("crates/transit_x/specs/X.antt", text),
            above(
                "crates/x/specs/Y.antt",
                "unfoldable pub use Rattle.transit.specs.Unread.{head}",
            ),
            Source::of(
                "crates/x/src/lib.rt",
                "#[tactic(auto, unfolding(crate::specs::X::f, transit::specs::Unread::head))]\nfn f() {}\n\
                 #[tactic(auto, unfolding(transit::specs::Opened::opened_unread))]\nfn g() {}",
            ),
        ];
        let expected = [
            "crates/x/specs/X.antt:5: 'transit.specs.Unread.appended' is opened",
            "crates/x/specs/X.antt:11: 'transit.specs.Unread.removed' is opened",
            "crates/x/specs/X.antt:15: 'transit.specs.Unread.head' is opened",
            "crates/x/specs/Y.antt:4: the right to open is handed on",
            "crates/x/src/lib.rt:1: 'transit.specs.Unread.head' is opened",
            "crates/x/src/lib.rt:3: 'x.src.lib.rt.line 3' opens the lower part",
        ];
        assert_eq!(opened(&tree), expected);
    }

    #[test]
    fn openings_are_followed() {
        let worked = "unfoldable pub run : A\nunfolding opened_unread\nrun = a\n\n\
            b : A\nunfolding c\nb = run";
        let law = "use Rattle.x.specs.Worked.W.{run}\n\
            d : A\nunfolding run\nd = a\n\ne : A\nunfolding d\ne = d";
        let tree = [
            above("crates/x/specs/Worked/W.antt", worked),
            above("crates/x/specs/Laws/L.antt", law),
        ];
        let mut found: Vec<_> = openings(&tree).into_iter().collect();
        found.sort();
        let expected = [
            super::OPENING,
            "x.specs.Laws.L.d",
            "x.specs.Laws.L.e",
            "x.specs.Worked.W.run",
        ];
        assert_eq!(found, expected);
        let expected = [
            "crates/x/specs/Laws/L.antt:6: 'x.specs.Laws.L.d' opens the lower part",
            "crates/x/specs/Laws/L.antt:10: 'x.specs.Laws.L.e' opens the lower part",
        ];
        assert_eq!(opened(&tree), expected);
        let expected = ["crates/x/specs/Laws/L.antt: 'x.specs.Worked.W.run' is cited"];
        assert_eq!(cited_beside(&tree), expected);
    }

    #[test]
    fn laws_beside_the_promise_are_found() {
        let text = "use Rattle.transit.specs.Laws.Pairs.{a}\n\
            use Rattle.transit.specs.Laws.Held.{b}\nc = a b";
        let paths = [
            "crates/x/proofs/f/Answers.antt",
            "crates/transit_x/proofs/f/Answers.antt",
        ];
        let found = cited_beside(&paths.map(|path| Source::of(path, text)));
        let expected = ["crates/x/proofs/f/Answers.antt: 'transit.specs.Laws.Held.b' is cited"];
        assert_eq!(found, expected);
    }
}
