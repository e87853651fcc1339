//! How many lines of proof there are for a line of code.

use crate::code::is_handed;
use crate::imports::import_lines;
use crate::tree::{sources, Source};

/// The quotient is below this, in hundredths.
const MOST: usize = 300;

/// Whether a file is proof: what is below proofs/ but for worked examples, and
/// the files of laws.
fn is_proof(path: &str) -> bool {
    let parts: Vec<&str> = path.split('/').collect();
    match parts[..] {
        ["crates", _, "proofs", folder, ..] => !["Worked", "Worked.antt"].contains(&folder),
        ["crates", _, "specs", folder, ..] => ["Laws", "Laws.antt"].contains(&folder),
        _ => false,
    }
}

fn is_code(path: &str) -> bool {
    path.split('/').nth(2) == Some("src")
}

/// The lines of a file that are neither blank nor comment nor import, nor tell
/// the prover its tactics.
fn volume(source: &Source) -> usize {
    let imports = import_lines(&source.text);
    let says = |(line, content): &(usize, &str)| {
        let content = content.trim_start();
        let comment = content.starts_with("--") || content.starts_with("//");
        !(content.is_empty() || comment || is_handed(content) || imports.contains(line))
    };
    source.lines().filter(says).count()
}

fn total(sources: &[Source], counts: impl Fn(&str) -> bool) -> usize {
    let counted = sources.iter().filter(|source| counts(&source.path));
    counted.map(volume).sum()
}

#[test]
fn proof_lines_for_a_code_line() {
    let proof = total(&sources(&[".antt"]), is_proof);
    let code = total(&sources(&[".rt"]), is_code);
    let hundredths = proof * 100 / code;
    let said = format!(
        "{proof} lines of proof, {code} of code: {}.{:02} for one",
        hundredths / 100,
        hundredths % 100
    );
    println!("{said}");
    assert!(hundredths < MOST, "{said}");
}

#[test]
fn proof_is_told_from_definitions() {
    for path in [
        "crates/protocol/specs/Laws/Kept/Names.antt",
        "crates/protocol/specs/Laws.antt",
        "crates/steps/proofs/step/Answers.antt",
        "crates/steps/proofs/step/Invariants.antt",
        "crates/ordering/specs/Laws/First.antt",
        "crates/protocol/proofs/Laws/Kept/Names.antt",
    ] {
        assert!(is_proof(path), "{path}");
    }
    for path in [
        "crates/protocol/specs/Step.antt",
        "crates/ordering/specs/Claim.antt",
        "crates/ordering/specs/Worked/Listing.antt",
        "crates/protocol/proofs/Worked/Spent.antt",
    ] {
        assert!(!is_proof(path), "{path}");
    }
}

#[test]
fn only_lines_that_say_something_count() {
    let antt = "-- a\nuse a.{\n  b,\n}\npub mod C\n\nf : A\n  -- b\nf = a -- c\n";
    let code = "// a\n#![tactic(auto)]\n\nghost use a.{b};\nuse c::D;\nmod e;\n\nfn f() {\n    g() // h\n}\n";
    let sources = [Source::of("x.antt", antt), Source::of("y.rt", code)];
    assert_eq!(total(&sources, |path| path == "x.antt"), 2);
    assert_eq!(total(&sources, |path| path == "y.rt"), 3);
}
