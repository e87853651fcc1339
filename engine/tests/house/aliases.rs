//! A variant has one name in the whole tree.

use crate::citations::antt_part;
use crate::code::{plain_imports, plain_part};
use crate::imports::imports;
use crate::tree::{expect_none, sources, Source};

fn renamed(source: &Source) -> Vec<String> {
    let imports = imports(&antt_part(source)).into_iter();
    let renamed = imports.filter_map(|import| {
        let name = import.path.split_once(".TheVariants.")?.1;
        (name != import.local).then(|| source.at(import.line, complaint(name, &import.local)))
    });
    let mut found: Vec<String> = renamed.collect();
    if source.path.ends_with(".rt") {
        found.extend(renamed_in_code(source));
    }
    found
}

fn renamed_in_code(source: &Source) -> Vec<String> {
    let plain = plain_part(&source.text);
    let imports = plain_imports(&plain).into_iter();
    let renamed = imports.filter_map(|import| {
        let (owner, name) = import.path.rsplit_once("::")?;
        let owner = owner.rsplit("::").next()?;
        let is_variant = owner.starts_with(|c: char| c.is_uppercase());
        (is_variant && name != import.local)
            .then(|| source.at(import.line, complaint(name, &import.local)))
    });
    renamed.collect()
}

fn complaint(name: &str, other: &str) -> String {
    format!("the variant '{name}' is called '{other}'")
}

#[test]
fn variants_have_no_alias() {
    let findings: Vec<String> = sources(&[".antt", ".rt"])
        .iter()
        .flat_map(renamed)
        .collect();
    expect_none(&findings);
}

#[test]
fn other_names_of_variants_are_found() {
    let antt = Source::of(
        "x.antt",
        "use a.B.TheVariants.{C, D as E}\nuse a.B.TheVariants as b\nuse a.B.{f as g}",
    );
    assert_eq!(renamed(&antt), ["x.antt:1: the variant 'D' is called 'E'"]);
    let code = Source::of(
        "x.rt",
        "ghost use a.B.TheVariants.{C as F};\nuse a::B::{D as E, G};\nuse a::b as c;\nuse a::B::G;",
    );
    let expected = [
        "x.rt:1: the variant 'C' is called 'F'",
        "x.rt:2: the variant 'D' is called 'E'",
    ];
    assert_eq!(renamed(&code), expected);
}
