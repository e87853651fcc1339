//! What the files of the tree cite of each other. A name is written with its
//! file: `protocol.specs.Laws.Step.step_refused`.

use crate::code::ghost_part;
use crate::imports::{imports, words_outside};
use crate::tree::Source;
use crate::words::{signs, used, Word};
use std::collections::{HashMap, HashSet};

/// The whole name of what a file of crates/ declares.
pub fn whole_name(path: &str, name: &str) -> String {
    let file = path.trim_start_matches("crates/").trim_end_matches(".antt");
    format!("{}.{name}", file.replace('/', "."))
}

/// A path of an import without its package: `Rattle.protocol.specs.Step` is
/// `protocol.specs.Step`.
pub fn without_package(path: &str) -> Option<String> {
    path.strip_prefix("Rattle.").map(str::to_owned)
}

/// Everything that a file cites of others, with the files and the types that
/// the names go through.
pub fn cited(source: &Source) -> HashSet<String> {
    let text = antt_part(source);
    let known = known(&text);
    let words = words_outside(&text);
    let used = used(&words);
    used.iter().flat_map(|word| paths(word, &known)).collect()
}

/// The whole names of what a text imports, by the words that stand for them.
pub fn known(text: &str) -> HashMap<String, String> {
    let mut known = HashMap::new();
    for import in imports(text) {
        let names = signs(&import.local).into_iter().chain([&import.local[..]]);
        if let Some(path) = without_package(&import.path) {
            known.extend(names.map(|name| (name.to_owned(), path.clone())));
        }
    }
    known
}

/// The part of a file that is Antt. What code hands to the prover names its own
/// crate `crate`.
pub fn antt_part(source: &Source) -> String {
    if source.path.ends_with(".rt") {
        let own = source.path.split('/').nth(1).unwrap_or("crate");
        return ghost_part(&source.text).replace("crate::", &format!("{own}::"));
    }
    source.text.clone()
}

/// The whole names that a word goes through: of `Kind.find` that of `Kind`, and
/// with `find`. What code hands to the prover has its whole name:
/// `transit::specs::Laws::Pairs::append_own`.
pub fn paths(word: &Word, known: &HashMap<String, String>) -> Vec<String> {
    if word.text.contains("::") {
        return vec![word.text.replace("::", ".")];
    }
    let mut parts = word.text.split('.');
    let first = parts.next().and_then(|head| known.get(head));
    let mut found: Vec<String> = first.into_iter().cloned().collect();
    for part in parts {
        if let Some(last) = found.last() {
            found.push(format!("{last}.{part}"));
        }
    }
    found
}

mod tests {
    use super::{cited, whole_name};
    use crate::tree::Source;

    #[test]
    fn names_are_followed_through_imports() {
        let text = "use Rattle.a.specs.B.{c as d, e, ◌<◌}\nuse Rattle.f.specs.G\nuse m.{n}\n\
                    x = d (G.h n).e < k";
        let mut found: Vec<_> = cited(&Source::of("crates/a/specs/X.antt", text))
            .into_iter()
            .collect();
        found.sort();
        assert_eq!(
            found,
            ["a.specs.B.c", "a.specs.B.◌<◌", "f.specs.G", "f.specs.G.h"]
        );
        assert_eq!(whole_name("crates/a/specs/B.antt", "c"), "a.specs.B.c");
    }

    #[test]
    fn contracts_cite_too() {
        let text = "ghost use Rattle.a.specs.B.{c};\nfn f() ensures { c }";
        let found = cited(&Source::of("crates/k/src/lib.rt", text));
        assert!(found.contains("a.specs.B.c"));
    }

    #[test]
    fn what_the_prover_may_use_is_cited() {
        let text = "#[tactic(auto, using(crate::proofs::P::a, b::specs::C::d))]\nfn f() {}";
        let found = cited(&Source::of("crates/k/src/lib.rt", text));
        assert!(found.contains("k.proofs.P.a") && found.contains("b.specs.C.d"));
    }
}
