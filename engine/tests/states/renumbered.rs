//! Each state of the list with its ranks, or its hosts, renumbered: soundness
//! names no rank and no host, so that such a state is answered like the listed
//! one, by the second engine and by the proved program. A test that leaves out
//! a rank, two ranks or a host is told by this wherever it leaves it out.

use crate::built::snapshot;
use crate::list::{printed, states, Listed, WORDS};
use crate::proved_program::{program_at, USUAL_PLACE};
use engine::{broken_clauses, Host, Rank};
use std::collections::BTreeSet;
use std::fs::{self, File};
use std::path::Path;
use std::process::Command;

const RANKS: u32 = Rank::COUNT as u32;
const HOSTS: u32 = Host::COUNT as u32;

/// The most that the program reads of a list.
const MOST_BYTES: usize = 65_536;

/// The number that each rank and each host gets.
#[derive(Debug)]
struct Renumbering {
    ranks: Vec<u32>,
    hosts: Vec<u32>,
}

/// The product in the field of sixteen elements, whose numbers are the
/// polynomials over two elements modulo x^4 + x + 1.
fn product(a: u32, b: u32) -> u32 {
    let doubled = |a: u32| if a < 8 { 2 * a } else { (2 * a) ^ 0b1_0011 };
    match b {
        0 => 0,
        _ => product(doubled(a), b / 2) ^ (b % 2 * a),
    }
}

/// The ranks by each map r to a r + b of that field, a not 0, of which just one
/// brings two ranks to any other two; then the hosts by each rotation.
fn renumberings() -> impl Iterator<Item = Renumbering> {
    let maps = (1..RANKS).flat_map(|a| (0..RANKS).map(move |b| (a, b)));
    let of_ranks = maps.map(|(a, b)| Renumbering {
        ranks: (0..RANKS).map(|rank| product(a, rank) ^ b).collect(),
        hosts: (0..HOSTS).collect(),
    });
    let of_hosts = (1..HOSTS).map(|turn| Renumbering {
        ranks: (0..RANKS).collect(),
        hosts: (0..HOSTS).map(|host| (host + turn) % HOSTS).collect(),
    });
    of_ranks.chain(of_hosts)
}

/// The number that a rank or a host gets; what is none stays.
fn renumbered(numbers: &[u32], old: u32) -> u32 {
    numbers.get(old as usize).copied().unwrap_or(old)
}

impl Renumbering {
    /// A change with its ranks and hosts renumbered. A vmid of number 0 stays,
    /// since 0.0 is no process of host 0: it is unknown.
    fn change(&self, line: &str) -> String {
        let mut written = line.split(' ');
        let word = written.next().unwrap();
        let mut numbers: Vec<u32> = written.map(|field| field.parse().unwrap()).collect();
        let (_, fields) = WORDS.iter().find(|(known, _)| *known == word).unwrap();
        let mut at = 0;
        for field in fields.chars() {
            match field {
                'r' => numbers[at] = renumbered(&self.ranks, numbers[at]),
                'h' => numbers[at] = renumbered(&self.hosts, numbers[at]),
                'v' => {
                    if numbers[at + 1] != 0 {
                        numbers[at] = renumbered(&self.hosts, numbers[at]);
                    }
                    at += 1;
                }
                _ => {}
            }
            at += 1;
        }
        assert_eq!(at, numbers.len(), "{line}");
        let numbers = numbers.iter().map(|number| format!(" {number}"));
        word.to_string() + &numbers.collect::<String>()
    }

    fn state(&self, listed: &Listed) -> Listed {
        let changes = listed.changes.iter().map(|line| self.change(line));
        Listed {
            changes: changes.collect(),
            ..listed.clone()
        }
    }

    fn all(&self, states: &[Listed]) -> Vec<Listed> {
        states.iter().map(|listed| self.state(listed)).collect()
    }
}

#[test]
fn any_two_ranks_come_to_any_other_two() {
    let mut met = BTreeSet::new();
    for Renumbering { ranks, .. } in renumberings() {
        assert_eq!(BTreeSet::from_iter(&ranks).len(), Rank::COUNT);
        for (a, &first) in ranks.iter().enumerate() {
            for (b, &second) in ranks.iter().enumerate() {
                met.insert((a, b, first, second));
            }
        }
    }
    let pairs = Rank::COUNT * (Rank::COUNT - 1);
    assert_eq!(met.len(), Rank::COUNT * Rank::COUNT + pairs * pairs);
}

#[test]
fn a_renumbered_state_breaks_the_same_clauses() {
    let states = states();
    let broken = |states: &[Listed]| -> Vec<_> {
        let broken = |listed| broken_clauses(&snapshot(listed, &states[0]));
        states.iter().map(broken).collect()
    };
    let listed = broken(&states);
    for renumbering in renumberings() {
        let renumbered = renumbering.all(&states);
        for (index, broken) in broken(&renumbered).iter().enumerate() {
            assert_eq!(broken, &listed[index], "{:?}", renumbered[index]);
        }
    }
}

/// The list as the program reads it.
fn text(states: &[Listed]) -> String {
    let lines = |listed: &Listed| {
        let name = format!("{} {}\n", listed.verdict(), listed.name);
        listed.changes.join("\n") + "\n" + &name
    };
    states.iter().map(lines).collect()
}

/// What the program prints for this list.
fn answered(program: &Path, list: &str) -> String {
    assert!(list.len() <= MOST_BYTES);
    let place = Path::new(env!("CARGO_TARGET_TMPDIR")).join("renumbered-states");
    fs::write(&place, list).unwrap();
    let mut command = Command::new(program);
    let output = command.stdin(File::open(&place).unwrap()).output().unwrap();
    assert!(output.status.success());
    String::from_utf8(output.stdout).unwrap()
}

#[test]
fn the_proved_program_answers_a_renumbered_state_alike() {
    let crates = Path::new(USUAL_PLACE).ancestors().nth(3).unwrap();
    let place = crates.join("test_spoiled/out/test_spoiled");
    let Some(program) = program_at(place) else {
        return;
    };
    let states = states();
    let listed = printed(&states);
    for renumbering in renumberings() {
        let list = text(&renumbering.all(&states));
        let answers = answered(&program, &list);
        let differing = answers.lines().zip(listed.lines()).find(|(a, b)| a != b);
        assert_eq!(differing, None, "{renumbering:?}");
        assert_eq!(answers.len(), listed.len(), "{renumbering:?}");
    }
}
