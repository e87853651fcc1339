//! Every imported name is used in the file that imports it.

use crate::code::{ghost_part, plain_imports, plain_part, plain_words, uses};
use crate::imports::{imports, words_outside};
use crate::tree::{expect_none, sources, Source};
use crate::words::{head, signs, used};
use std::collections::HashSet;

fn unused(source: &Source) -> Vec<String> {
    if source.path.ends_with(".rt") {
        let mut found = unused_names(source, &ghost_part(&source.text));
        found.extend(unused_in_code(source));
        return found;
    }
    unused_names(source, &source.text)
}

/// What an Antt text of a file imports and does not use.
fn unused_names(source: &Source, text: &str) -> Vec<String> {
    let words = words_outside(text);
    let names: HashSet<&str> = used(&words).iter().map(|word| head(word.text)).collect();
    let imports = imports(text).into_iter();
    let unused = imports.filter(|import| !is_used(&import.local, &names));
    unused
        .map(|import| source.at(import.line, complaint(&import.local)))
        .collect()
}

/// Whether a name is among those used, as it is or by its signs.
fn is_used(name: &str, names: &HashSet<&str>) -> bool {
    names.contains(name) || signs(name).iter().all(|sign| names.contains(sign))
}

/// The traits of the kit that a file brings in to call what they have.
const TRAITS: [(&str, &[&str]); 1] = [("std::io::Read", &["read", "take"])];

/// Whether code calls something that a trait has.
fn calls(words: &[&str], trait_path: &str) -> bool {
    let traits = TRAITS.iter().filter(|(path, _)| *path == trait_path);
    let mut methods = traits.flat_map(|(_, methods)| *methods);
    methods.any(|method| words.windows(3).any(|call| call == [".", method, "("]))
}

fn unused_in_code(source: &Source) -> Vec<String> {
    let plain = plain_part(&source.text);
    let words = plain_words(&plain);
    let imports = plain_imports(&plain).into_iter();
    let used = |path: &str, name: &str| uses(&words, name) || calls(&words, path);
    let unused = imports.filter(|import| !used(&import.path, &import.local));
    unused
        .map(|import| source.at(import.line, complaint(&import.local)))
        .collect()
}

fn complaint(name: &str) -> String {
    format!("'{name}' is imported and not used")
}

#[test]
fn every_imported_name_is_used() {
    let findings: Vec<String> = sources(&[".antt", ".rt"]).iter().flat_map(unused).collect();
    expect_none(&findings);
}

mod tests {
    use super::unused;
    use crate::tree::Source;

    fn names(path: &str, text: &str) -> Vec<String> {
        let quoted = |finding: String| finding.split('\'').nth(1).unwrap().to_owned();
        unused(&Source::of(path, text))
            .into_iter()
            .map(quoted)
            .collect()
    }

    #[test]
    fn used_names_pass() {
        let text = "use a.{b, ◌≡◌, [], if◌then◌, c as d}\nuse a.E\nuse a.f as g\n\
                    b : E.x ≡ g.y\nb = if (d []) then d";
        assert_eq!(names("x.antt", text), [""; 0]);
        let text = "ghost use a.{b};\nuse c::{D, e};\nfn f(x: D)\n    ensures { b x }\n{ e(x) }";
        assert_eq!(names("x.rt", text), [""; 0]);
        let text = "use std::io::Read;\nfn f() {\n    a.read(b)\n}";
        assert_eq!(names("x.rt", text), [""; 0]);
        let text = "ghost use a.{b};\nstruct S {\n    x: u8,\n    ghost kept: { b x },\n}";
        assert_eq!(names("x.rt", text), [""; 0]);
        let text = "use a::B;\nfn f() {\n    for i in 0..B {}\n}";
        assert_eq!(names("x.rt", text), [""; 0]);
    }

    #[test]
    fn unused_names_are_found() {
        let text =
            "use a.{b, ◌∷◌,\n  c as d, find}\nuse a.E\nuse a.f as g\n-- b d E g\nx = (y.find z).find c f.g";
        assert_eq!(names("x.antt", text), ["b", "◌∷◌", "d", "find", "E", "g"]);
        let text = "ghost use a.{b};\nuse c::D;\nuse c::{f, g};\n\
                    fn b(x: u8)\n    ensures { D x }\n{ x.f(); g(x) } // f(x)";
        assert_eq!(names("x.rt", text), ["b", "D", "f"]);
        let text = "use std::io::Read;\nuse a::Read;\nfn f() {\n    read(b).write(c)\n}";
        assert_eq!(names("x.rt", text), ["Read", "Read"]);
    }
}
