//! A long way into what a proof knows has a name: a path of five or more names
//! in a row stands on a line `let NAME = PATH in` only. What a proof knows has
//! its steps side by side, each under its own name, so that `c.f-r.ensures.whole`
//! is a short way: it goes through no step that came before. A part that is
//! named by its number, `.1.0`, is told by its kind, and counts for none.

use crate::imports::words_outside;
use crate::tree::{expect_none, sources, Source};
use crate::words::Word;

/// How many names in a row are long.
const LONG: usize = 5;

fn unnamed(source: &Source) -> Vec<String> {
    let words = words_outside(&source.text);
    let long = words.iter().filter(|word| steps(word.text) >= LONG);
    let unnamed = long.filter(|word| !stands_alone(word, &words));
    unnamed
        .map(|word| {
            let said = format!("{} names in a row without a name", steps(word.text));
            source.at(word.line, said)
        })
        .collect()
}

/// How many names a path goes through, behind the one that it begins with. What
/// has its package is no way, but a name.
fn steps(path: &str) -> usize {
    if path.starts_with("Rattle.") {
        return 0;
    }
    let parts = path.split('.').skip(1);
    parts
        .filter(|part| part.starts_with(|c: char| c.is_alphabetic() || c == '_'))
        .count()
}

/// Whether the line of a path says `let NAME = PATH in` and nothing else.
fn stands_alone(path: &Word, words: &[Word]) -> bool {
    let on_line = words.iter().filter(|word| word.line == path.line);
    let on_line: Vec<&str> = on_line.map(|word| word.text).collect();
    let ["let", _, "=", value @ .., "in"] = &on_line[..] else {
        return false;
    };
    let is_part = |part: &&str| part.starts_with(|c: char| c == '.' || c.is_alphabetic());
    value.iter().all(is_part)
}

#[test]
fn long_paths_are_named() {
    let findings: Vec<String> = sources(&[".antt"]).iter().flat_map(unnamed).collect();
    expect_none(&findings);
}

#[test]
fn long_paths_are_told_from_their_names() {
    for named in [
        "let a = c.loop-at.invariant.kept.ranks.whole in",
        "    let a = f c.loop-at.invariant.kept.ranks.whole in",
        "f c.loop-at.invariant.kept.ranks (c.f-r.ensures.whole.1.0.1.1)",
        "use Rattle.a.specs.B.C.D.{e}",
        "f Rattle.a.specs.B.C.D.e",
        "-- c.loop-at.invariant.kept.ranks.whole",
    ] {
        assert_eq!(unnamed(&Source::of("x", named)), [""; 0]);
    }
    for unnamed_path in [
        "f c.loop-at.invariant.kept.ranks.whole",
        "f (c d).loop-at.invariant.kept.ranks.whole",
        "let a = f (c.loop-at.invariant.kept.ranks.whole) in",
        "let a = c.loop-at.invariant.kept.ranks.whole in f a",
        "a c = c.loop-at.invariant.kept.ranks.whole",
    ] {
        let found = unnamed(&Source::of("x", unnamed_path));
        assert_eq!(found, ["x:1: 5 names in a row without a name"]);
    }
}
