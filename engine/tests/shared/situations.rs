//! How often a run came into the situations of paper 01 that are easy to get
//! wrong: overlapping moves, lines that are notices, calls that miss, limits;
//! into those of a restart and of a full pair; to which running numbers, and to
//! which looks.

mod full_pairs;
mod looks;
mod past;
mod restarts;
mod running_numbers;

pub use full_pairs::FullPairs;
pub use looks::Looks;
pub use restarts::Restarts;
pub use running_numbers::RunningNumbers;

use engine::{Desk, Kind, Line, Rank, Refusal, Step, Values};
use past::Past;

/// The counts, each of steps; a step may count in several.
#[derive(Clone, Debug, Default)]
pub struct Situations {
    two_moving: u64,
    four_moving: u64,
    moves_across_notices: u64,
    sends_on_notices: u64,
    sends_to_arrivals: u64,
    heeds_by_arrivals: u64,
    heeds_that_moved: u64,
    landings_ahead_of_news: u64,
    reroutes: u64,
    routes_to_ended: u64,
    refused_full: u64,
    pub restarts: Restarts,
    pub full_pairs: FullPairs,
    pub running_numbers: RunningNumbers,
    pub looks: Looks,
    past: Past,
}

impl Situations {
    /// Looks at a step before it is made.
    pub fn note_before(&mut self, desk: &Desk, step: Step) {
        let moving = |rank: Rank| desk.standing(rank).is_moving();
        let count = past::moving(desk);
        self.two_moving += u64::from(count >= 2);
        self.four_moving += u64::from(count >= 4);
        let checked = desk.check(step);
        if checked.is_ok() {
            self.restarts.note(desk, step);
            self.full_pairs.note(desk, step);
            self.past.note(desk, step);
            self.running_numbers.note_before(desk, step, &self.past);
            self.looks.note(desk, step, &self.past);
        }
        match (step, checked) {
            (Step::Send { .. }, Err(Refusal::DeskFull)) => self.refused_full += 1,
            (Step::Send { a, b, .. }, Ok(())) => {
                let notice = desk.line(a, b) == Line::Notice;
                self.sends_on_notices += u64::from(notice);
                self.sends_to_arrivals += u64::from(!notice && moving(b));
            }
            (Step::Move { r, .. }, Ok(())) => {
                let across = Rank::all().any(|s| desk.line(r, s) == Line::Notice);
                self.moves_across_notices += u64::from(across);
            }
            (Step::Heed { b, .. }, Ok(())) => self.heeds_by_arrivals += u64::from(moving(b)),
            (Step::Land { r }, Ok(())) => {
                let mixed = |s| {
                    let [listed, _, current, lane] = desk.mail().counts(s, r);
                    listed > 0 && current + lane > 0
                };
                self.landings_ahead_of_news += u64::from(Rank::all().any(mixed));
            }
            _ => {}
        }
    }

    /// Looks at an accepted step after it is made.
    pub fn note_after(&mut self, step: Step, values: Values) {
        self.running_numbers.note_after(step, values);
        match (step.kind(), values[0]) {
            (Kind::Route, 1) => self.reroutes += 1,
            (Kind::Route, 2) => self.routes_to_ended += 1,
            (Kind::Heed, moved) => self.heeds_that_moved += u64::from(moved > 0),
            _ => {}
        }
    }

    /// All counts with what they are counts of.
    pub fn rows(&self) -> Vec<(&'static str, u64)> {
        let rows = [
            ("steps while two or more ranks move", self.two_moving),
            ("steps while four or more ranks move", self.four_moving),
            (
                "moves while the other end of a line moves",
                self.moves_across_notices,
            ),
            ("sends on a notice", self.sends_on_notices),
            ("sends to an arrival", self.sends_to_arrivals),
            ("heeds by an arrival", self.heeds_by_arrivals),
            ("heeds that move messages", self.heeds_that_moved),
            (
                "landings with newer messages waiting",
                self.landings_ahead_of_news,
            ),
            ("routes that miss", self.reroutes),
            ("routes to an ended rank", self.routes_to_ended),
            ("sends to a full desk", self.refused_full),
        ];
        let (restarts, full_pairs) = (self.restarts.rows(), self.full_pairs.rows());
        let (running_numbers, looks) = (self.running_numbers.rows(), self.looks.rows());
        [&rows[..], &restarts, &full_pairs, &running_numbers, &looks].concat()
    }
}
