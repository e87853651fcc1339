//! What a set of logs reaches: how many steps, how often each kind is accepted
//! and each number given, and the situations that are easy to get wrong.

use crate::check_table::NAMED;
use crate::log::Log;
use crate::situations::Situations;
use engine::{Desk, Kind, Refusal, Step};

/// The highest number of a check.
const HIGHEST: usize = Refusal::SendsExhausted as usize;

/// What no log here gives: from a fresh desk no state is unsound, and no log is
/// so long that a pair sends 4,294,967,295 messages. The tests of the engine by
/// itself meet 1 and 28 in states that are handed in.
const HANDED_IN: [Refusal; 2] = [Refusal::UnsoundState, Refusal::SendsExhausted];

/// The numbers that the logs give.
pub fn numbers() -> impl Iterator<Item = usize> {
    let given = |refusal: &Refusal| !HANDED_IN.contains(refusal);
    let refusals = Refusal::ALL.into_iter().filter(given);
    refusals.map(|refusal| usize::from(refusal.number()))
}

/// Bytes that are no kind are counted together, before the kinds.
const SORTS: usize = Kind::ALL.len() + 1;

/// The counts of a set of logs.
pub struct Tally {
    logs: u64,
    steps: u64,
    /// By number, 0 for accepted steps, and by kind.
    answers: [[u64; SORTS]; HIGHEST + 1],
    pub situations: Situations,
}

impl Tally {
    pub fn of(logs: &[Log]) -> Tally {
        let mut tally = Tally {
            logs: logs.len() as u64,
            steps: 0,
            answers: [[0; SORTS]; HIGHEST + 1],
            situations: Situations::default(),
        };
        for log in logs {
            tally.run(&log.bytes);
        }
        tally
    }

    /// Counts the lines of a log's printed run that are of records.
    fn run(&mut self, log: &[u8]) {
        let mut desk = Desk::fresh();
        let mut position = 0;
        while let Some(&byte) = log.get(position) {
            let step = Step::read(&log[position..]).map(|(step, _)| step);
            if let Ok(step) = step {
                self.situations.note_before(&desk, step);
            }
            let outcome = desk.step_sound(log, position as u64);
            if let (Ok(step), Ok(values)) = (step, outcome.answer) {
                self.situations.note_after(step, values);
            }
            let number = engine::refusal::number_of(&outcome.answer);
            let sort = Kind::from_byte(byte).map_or(0, |kind| kind as usize);
            self.answers[usize::from(number)][sort] += 1;
            self.steps += 1;
            if outcome.answer.is_err_and(Refusal::keeps_position) {
                break;
            }
            position = outcome.next as usize;
        }
    }

    pub fn accepted(&self, kind: Kind) -> u64 {
        self.answers[0][kind as usize]
    }

    /// How many steps, of whatever kinds, get a number.
    pub fn refused(&self, number: usize) -> u64 {
        self.answers[number].iter().sum()
    }

    /// The counts of logs, steps and answers, one a line.
    pub fn answers_report(&self) -> String {
        let mut lines = vec![
            format!("logs: {}", self.logs),
            format!("steps: {}", self.steps),
        ];
        for kind in Kind::ALL {
            let (byte, word, count) = (kind as u8, kind.word(), self.accepted(kind));
            lines.push(format!("accepted {byte:02X} {word}: {count}"));
        }
        for number in numbers() {
            lines.push(format!("refused with {number}: {}", self.refused(number)));
        }
        lines.join("\n") + "\n"
    }

    /// All counts, one a line.
    pub fn report(&self) -> String {
        let rows = self.situations.rows().into_iter();
        let lines = rows.map(|(situation, count)| format!("{situation}: {count}\n"));
        self.answers_report() + &lines.collect::<String>()
    }

    /// Every kind is accepted, every number from 2 to 25 but 18 is given, from
    /// 3 on in every kind that the table names, and every situation comes up.
    pub fn check(&self) {
        for kind in Kind::ALL {
            let word = kind.word();
            assert!(self.accepted(kind) > 0, "no {word} is accepted");
            assert!(self.answers[3][kind as usize] > 0, "no {word} is cut short");
        }
        assert!(self.answers[2][0] > 0, "no unknown kind");
        let handed_in = HANDED_IN.map(Refusal::number);
        let given = NAMED
            .iter()
            .filter(|(number, _)| !handed_in.contains(number));
        for (number, words) in given {
            for word in *words {
                let kind = Kind::from_word(word).unwrap();
                let count = self.answers[usize::from(*number)][kind as usize];
                assert!(count > 0, "no {word} gets {number}");
            }
        }
        let withdrawn = Refusal::WITHDRAWN.map(|(number, ..)| number);
        for number in withdrawn.into_iter().chain(handed_in) {
            assert_eq!(self.refused(usize::from(number)), 0, "{number} is given");
        }
        for (situation, count) in self.situations.rows() {
            assert!(count > 0, "no {situation}");
        }
    }
}
