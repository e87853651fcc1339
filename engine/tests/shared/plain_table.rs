//! Paper 01's table of checks read row by row on the plain state, as paper 02
//! has changed it: each number has its own test of when it applies, whatever
//! lower ones do. "The lowest number that applies is given." The engine's own
//! checks are ordered kind by kind; the two must agree.

use crate::check_table::NAMED;
use crate::step_log::{Listed, KINDS};
use engine::{Await, Call, Line, Snapshot, Standing};

/// The numbers of the table that apply to a whole record of a known kind in a
/// sound state, the lowest first.
pub fn applying(state: &Snapshot, record: &[u8]) -> Vec<u8> {
    let row = Row { state, record };
    let named = NAMED
        .iter()
        .filter(|(_, words)| words.contains(&row.word()));
    let numbers = named.map(|(number, _)| *number);
    numbers.filter(|&number| row.applies(number)).collect()
}

/// A rank above 15 is read as one that nobody has started, which has no line,
/// call, await or message, and a host above 7 as one with no numbers drawn.
struct Row<'a> {
    state: &'a Snapshot,
    record: &'a [u8],
}

impl Row<'_> {
    fn listed(&self) -> &'static Listed {
        let mut kinds = KINDS.iter();
        kinds.find(|(kind, ..)| *kind == self.record[0]).unwrap()
    }

    fn word(&self) -> &'static str {
        self.listed().1
    }

    /// The ranks that the record names: one byte each, before all longer fields.
    fn ranks(&self) -> Vec<u8> {
        let fields = self.listed().2.iter().zip(&self.record[1..]);
        let ranks = fields.filter(|(field, _)| matches!(**field, "a" | "b" | "r" | "s"));
        ranks.map(|(_, &rank)| rank).collect()
    }

    fn first(&self) -> usize {
        usize::from(self.record[1])
    }

    fn second(&self) -> usize {
        usize::from(self.record[2])
    }

    fn standing_of(&self, rank: usize) -> Standing {
        let standing = self.state.standings.get(rank);
        standing.copied().unwrap_or(Standing::Unstarted)
    }

    fn standing(&self) -> Standing {
        self.standing_of(self.first())
    }

    fn call(&self) -> Option<Call> {
        self.state.calls.get(self.first()).copied().flatten()
    }

    /// What the first rank has with each rank.
    fn of_first<'a, T>(&self, rows: &'a [[T; 16]; 16]) -> &'a [T] {
        rows.get(self.first()).map_or(&[], |row| row)
    }

    /// What the first rank has with the second.
    fn of_pair<T: Copy>(&self, rows: &[[T; 16]; 16]) -> Option<T> {
        self.of_first(rows).get(self.second()).copied()
    }

    fn line(&self) -> Line {
        self.of_pair(&self.state.lines).unwrap_or(Line::None)
    }

    fn awaited(&self) -> Await {
        self.of_pair(&self.state.awaits).unwrap_or(Await::None)
    }

    /// Messages from a sender to a receiver, at any of these places.
    fn any_message(&self, sender: Option<usize>, receiver: usize, places: &[u8]) -> bool {
        self.state.messages.iter().any(|message| {
            sender.is_none_or(|sender| message.sender.index() == sender)
                && message.receiver.index() == receiver
                && places.contains(&message.place)
        })
    }

    /// Whether a number applies to a kind that is named for it.
    fn applies(&self, number: u8) -> bool {
        const ANY_PLACE: &[u8] = &[0, 1, 2, 3];
        let state = self.state;
        match number {
            4 => self.ranks().iter().any(|&rank| rank > 15),
            5 => self.second() > 7,
            6 => matches!(self.ranks()[..], [one, other] if one == other),
            7 => {
                let mut ranks = self.ranks().into_iter().map(usize::from);
                ranks.any(|rank| self.standing_of(rank) == Standing::Unstarted)
            }
            8 => self.standing() != Standing::Unstarted,
            9 => self.standing().is_ended(),
            10 => self.standing().is_moving(),
            11 => !self.standing().is_moving(),
            12 => match self.word() {
                "call" => self.line() != Line::None,
                _ => {
                    let mut lines = self.of_first(&state.lines).iter();
                    lines.any(|&line| line != Line::None)
                }
            },
            13 => self.call().is_some(),
            14 => {
                let called = self.call().map(|call| call.called.index());
                called != Some(self.second())
            }
            15 => self.line() == Line::None,
            16 => self.line() == Line::Notice,
            17 => self.line() != Line::Notice,
            19 => {
                let mut awaits = self.of_first(&state.awaits).iter();
                awaits.any(|&awaited| awaited != Await::None)
            }
            20 => self.awaited() == Await::None,
            21 => {
                !self.any_message(Some(self.second()), self.first(), &[1])
                    && self.awaited() == Await::Unheeded
            }
            22 => match self.word() {
                "take" => !self.any_message(Some(self.second()), self.first(), ANY_PLACE),
                _ => !self.any_message(None, self.first(), ANY_PLACE),
            },
            23 => self.any_message(None, self.first(), ANY_PLACE),
            24 => state.messages.len() >= 1_024,
            25 => {
                let drawn = state.drawn.get(self.second());
                drawn.is_some_and(|&drawn| drawn >= 65_535)
            }
            28 => self.of_pair(&state.sent) == Some(4_294_967_295),
            _ => unreachable!("the table has no such row"),
        }
    }
}
