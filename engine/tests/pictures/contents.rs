//! What a picture has to show, counted along the run: steps, processes,
//! messages, their changes of place, end markers and refusals.

use crate::drawing::{draw, example, examples, file_with};
use crate::xml;
use engine::proposals::{random_log, Mix};
use engine::text::{decode, encode};
use engine::{Await, Desk, Place, Rank, Step};
use std::collections::BTreeMap;
use std::fs;

/// What a run has: texts with the class that they have in a picture, and
/// shapes, each with how often they come.
#[derive(Default)]
struct Expected {
    texts: BTreeMap<(&'static str, String), usize>,
    dots: usize,
    diamonds: usize,
    looks: usize,
}

impl Expected {
    fn text(&mut self, class: &'static str, text: impl ToString) {
        *self.texts.entry((class, text.to_string())).or_default() += 1;
    }

    /// Counts what a step has, between two desks.
    fn step(&mut self, step: Step, before: &Desk, after: &Desk, values: [u32; 3]) {
        let [v1, v2, _] = values;
        match step {
            Step::Start { .. } | Step::Move { .. } => self.text("middle", format!("{v1}.{v2}")),
            Step::Take { .. } => self.text("taken", v1),
            Step::Drain { .. } if v1 == 0 => self.text("drained", v2),
            Step::End { .. } => self.text("faint middle", "ended"),
            Step::Look { .. } => {
                self.looks += 1;
                self.text("faint middle", format!("sees {v1}"));
            }
            Step::Send { a, b, value } => {
                self.text(if a < b { "begin" } else { "end" }, value);
            }
            _ => {}
        }
        self.dots += changes(step, before, v1);
        self.diamonds += marked(before).abs_diff(marked(after));
    }
}

/// How many messages a step brings to another place.
fn changes(step: Step, before: &Desk, v1: u32) -> usize {
    let at = |sender, receiver, place: Place| {
        usize::from(before.mail().counts(sender, receiver)[place as usize])
    };
    let all = |receiver, place| {
        Rank::all()
            .map(|sender| at(sender, receiver, place))
            .sum::<usize>()
    };
    match step {
        Step::Move { r, .. } => all(r, Place::CurrentList) + all(r, Place::CurrentLane),
        Step::Heed { b, r } => at(r, b, Place::CurrentLane),
        Step::Drain { .. } => usize::from(v1 == 0),
        Step::Land { r } => all(r, Place::MoverList),
        Step::Part { a, b } => at(a, b, Place::CurrentLane) + at(b, a, Place::CurrentLane),
        _ => 0,
    }
}

/// How many end markers are on lanes.
fn marked(desk: &Desk) -> usize {
    let awaits = Rank::all().flat_map(|r| Rank::all().map(move |s| desk.awaits(r, s)));
    awaits.filter(|found| *found == Await::Marked).count()
}

/// What the run of a log has, up to what is no record.
fn expected(log: &[u8]) -> Expected {
    let (mut expected, mut desk) = (Expected::default(), Desk::fresh());
    let mut position = 0;
    while let Ok((step, length)) = Step::read(&log[position..]) {
        let record = &log[position..position + length];
        let before = desk.clone();
        let answer = desk.step_sound(record, 0).answer;
        let text = decode(record).trim_end().to_owned();
        expected.text("faint end", position);
        match answer {
            Ok(values) => {
                expected.text("plain", text);
                expected.step(step, &before, &desk, values);
            }
            Err(refusal) => {
                expected.text("faint", text);
                let on_a_bar = step.ranks().next().is_some_and(Rank::in_range);
                let shown = 1 + usize::from(on_a_bar);
                (0..shown).for_each(|_| expected.text("number", refusal.number()));
            }
        }
        position += length;
    }
    expected
}

/// How often a text of a class is in a picture above its legend.
fn count(picture: &str, class: &str, text: &str) -> usize {
    let begins = format!("<text class=\"{class}\" ");
    let ends = format!(">{text}</text>");
    let is_it = |line: &&str| line.starts_with(&begins) && line.ends_with(&ends);
    picture.lines().filter(is_it).count()
}

/// Whether a picture shows what the run of its log has.
fn assert_shows(picture: &str, log: &[u8], name: &str) {
    let expected = expected(log);
    for ((class, text), &times) in &expected.texts {
        // A step's number can be a position, and the legend has samples.
        let found = count(picture, class, text);
        assert!(
            found >= times,
            "{name}: {text} is there {found} times as {class}, not {times}"
        );
    }
    assert_eq!(picture.matches(">sees ").count(), expected.looks, "{name}");
    assert_eq!(picture.matches("<circle ").count(), expected.dots, "{name}");
    let diamonds = picture.matches(" l5,5 ").count();
    assert_eq!(diamonds, expected.diamonds + 1, "{name}");
}

#[test]
fn every_example_is_shown_in_full() {
    for name in examples() {
        let file = example(&name);
        let log = encode(&fs::read_to_string(&file).unwrap()).unwrap();
        let Some(end) = draw(&[&file]) else { return };
        assert_shows(&end.picture(), &log, &name);
    }
}

#[test]
fn random_runs_are_shown_in_full() {
    for seed in 0..20 {
        let log = random_log(seed, Mix::BROAD, 120);
        let file = file_with("random.log", &log);
        let Some(end) = draw(&[&file]) else { return };
        let picture = end.picture();
        assert_eq!(xml::check(&picture), Ok(()));
        assert_shows(&picture, &log, &format!("seed {seed}"));
    }
}

#[test]
fn what_ends_a_run_is_shown() {
    for (name, record, number) in [
        ("cut-short", "send ..", "3"),
        ("spoiled-log", "bytes 7f ..", "2"),
    ] {
        let Some(end) = draw(&[&example(name)]) else {
            return;
        };
        let picture = end.picture();
        assert_eq!(count(&picture, "faint", record), 1);
        assert_eq!(count(&picture, "number", number), 1);
    }
}

#[test]
fn unread_messages_go_on_below() {
    let Some(end) = draw(&[&example("listing")]) else {
        return;
    };
    let picture = end.picture();
    let downwards: Vec<&str> = picture
        .lines()
        .filter(|line| line.contains("rotate(90 "))
        .collect();
    assert_eq!(downwards.len(), 2);
    assert!(downwards[0].ends_with(">501</text>") && downwards[1].ends_with(">502</text>"));
}
