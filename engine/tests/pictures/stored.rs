//! The pictures in docs/pictures/.

use crate::drawing::{draw, example, examples, names_in, ROOT};
use crate::xml;
use std::fs;

fn stored(name: &str) -> String {
    fs::read_to_string(format!("{ROOT}/docs/pictures/{name}.svg")).unwrap()
}

#[test]
fn every_example_has_one_and_there_is_no_other() {
    let pictures = examples().into_iter().map(|name| name + ".svg");
    assert_eq!(names_in("docs/pictures"), pictures.collect::<Vec<_>>());
}

#[test]
fn they_are_what_the_program_makes() {
    for name in examples() {
        let Some(end) = draw(&[&example(&name)]) else {
            return;
        };
        assert!(
            end.picture() == stored(&name),
            "./run --picture examples/{name}.txt makes another docs/pictures/{name}.svg"
        );
    }
}

#[test]
fn they_are_well_formed() {
    for name in examples() {
        assert_eq!(xml::check(&stored(&name)), Ok(()), "{name}");
    }
}

#[test]
fn the_page_shows_them_all() {
    let page = fs::read_to_string(format!("{ROOT}/docs/PICTURES.md")).unwrap();
    for name in examples() {
        let shown = format!("](pictures/{name}.svg)");
        assert_eq!(page.matches(&shown).count(), 1, "{name}");
    }
}
