//! What a file declares: definitions, laws, records and their fields, types,
//! functions and variants.

use crate::tree::Source;
use std::collections::HashSet;

pub fn declared(source: &Source) -> HashSet<String> {
    let name = if source.path.ends_with(".rt") {
        declared_in_code
    } else {
        declared_by_line
    };
    let lines = source.text.lines().map(str::trim_start);
    lines.filter_map(name).map(str::to_owned).collect()
}

/// The name that a line of Antt declares.
fn declared_by_line(line: &str) -> Option<&str> {
    let words = line.split(' ');
    let mut words = words.skip_while(|word| ["abbrev", "unfoldable", "pub"].contains(word));
    let first = words.next()?;
    let second = words.next()?;
    if ["record", "data"].contains(&first) {
        return Some(second);
    }
    (second == ":" || second.starts_with('{') && line.contains(" : ")).then_some(first)
}

/// The name that a line of code declares.
fn declared_in_code(line: &str) -> Option<&str> {
    let line = line.strip_prefix("pub ").unwrap_or(line);
    let (first, rest) = split_name(line);
    if ["fn", "struct", "enum", "const", "type", "mod"].contains(&first) {
        return Some(split_name(rest.trim_start()).0);
    }
    let is_field = rest.starts_with(": ");
    let is_variant = first.starts_with(|c: char| c.is_uppercase()) && rest.ends_with(',');
    (is_field || is_variant).then_some(first)
}

fn split_name(text: &str) -> (&str, &str) {
    let end = text.find(|c: char| !c.is_alphanumeric() && c != '_');
    text.split_at(end.unwrap_or(text.len()))
}

#[test]
fn declarations_are_told_from_the_rest() {
    let antt =
        "pub law : A\nabbrev pub f {ℓ} : A\npub record R (a : A) : Type 0 where\n  pub field :\n\
                f x = record { y = g }\n-- z : A\n    let w : A = x in";
    let mut found: Vec<_> = declared(&Source::of("x.antt", antt)).into_iter().collect();
    found.sort();
    assert_eq!(found, ["R", "f", "field", "law"]);
    let code = "pub enum E {\n    V(u8),\n}\npub struct S {\n    pub part: u8,\n}\n\
                pub fn act(x: u8) {\n    x.call(y)\n";
    let mut found: Vec<_> = declared(&Source::of("x.rt", code)).into_iter().collect();
    found.sort();
    assert_eq!(found, ["E", "S", "V", "act", "part"]);
}
