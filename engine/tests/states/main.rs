//! The list of sound and unsound states, `crates/test_spoiled/stdin`: the second
//! engine answers every state of it, and the theorems of `crates/test_worked` and
//! the expected output of the program `test_spoiled` are written from it. The
//! engine and the program answer its states renumbered as well.

mod built;
mod ends;
mod list;
#[path = "../shared/proved_program.rs"]
mod proved_program;
mod renumbered;
mod theorems;

use engine::{broken_clauses, is_sound, step, Clause, Outcome, Refusal};
use list::{states, Listed, ROOT};
use std::collections::BTreeSet;

#[test]
fn the_engine_answers_every_state_as_listed() {
    let states = states();
    for listed in &states {
        let state = built::snapshot(listed, &states[0]);
        assert_eq!(is_sound(&state), listed.sound, "{}", listed.name);
        let refusal = if listed.sound {
            Refusal::CutShort
        } else {
            Refusal::UnsoundState
        };
        let refused = Outcome {
            answer: Err(refusal),
            next: 0,
        };
        let mut lent = state.clone();
        assert_eq!(step(&mut lent, &[], 0), refused, "{}", listed.name);
        assert_eq!(lent, state, "{}", listed.name);
    }
}

/// Place 4 is the one thing unsound that the state of the program cannot hold.
#[test]
fn every_clause_is_broken_alone() {
    let states = states();
    let mut alone: BTreeSet<Clause> = states
        .iter()
        .map(|listed| broken_clauses(&built::snapshot(listed, &states[0])))
        .filter(|broken| broken.len() == 1)
        .flatten()
        .collect();
    alone.insert(Clause::PlacesInRange);
    assert_eq!(alone, Clause::all().collect());
}

/// "Sound pairs have unread numbers rising within 1 to the count sent."
#[test]
fn running_numbers_are_unsound_by_themselves() {
    let states = states();
    let about = |listed: &&Listed| listed.sentence.ends_with("(paper 02, change 4)");
    let of_numbers = [Clause::RunningNumbersRise, Clause::RunningNumbersWithinSent];
    let mut met = BTreeSet::new();
    for listed in states.iter().filter(about) {
        let broken = broken_clauses(&built::snapshot(listed, &states[0]));
        assert_eq!(broken.is_empty(), listed.sound, "{}", listed.name);
        assert!(broken.len() <= 1, "{}: {broken:?}", listed.name);
        met.extend(broken);
    }
    assert_eq!(met, BTreeSet::from(of_numbers));
}

#[test]
fn no_two_states_are_the_same() {
    let states = states();
    for (index, listed) in states.iter().enumerate() {
        let state = built::snapshot(listed, &states[0]);
        for earlier in &states[..index] {
            assert_ne!(listed.name, earlier.name);
            assert!(
                state != built::snapshot(earlier, &states[0]),
                "{} is {}",
                listed.name,
                earlier.name
            );
        }
    }
}

/// What is written from the list stands as it was written; with the variable
/// `WRITE_STATES` set it is written anew.
#[test]
fn what_is_written_from_the_list_is_current() {
    let states = states();
    let mut files = theorems::files(&states);
    files.push((
        "crates/test_spoiled/stdout".to_string(),
        list::printed(&states),
    ));
    for (file, text) in files {
        let path = format!("{ROOT}/{file}");
        if std::env::var_os("WRITE_STATES").is_some() {
            std::fs::write(&path, &text).unwrap();
        }
        let stored = std::fs::read_to_string(&path).unwrap();
        assert!(stored == text, "{file} is not what the list says");
    }
}
