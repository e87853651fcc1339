//! The printed run beside its log: each line with the record that it is about.

use crate::failure::Failure;
use engine::{Kind, Rank, Refusal, Step};
use std::fmt;
use std::io::{self, BufRead, BufReader, Read};

/// A line of the printed run.
#[derive(Debug, PartialEq)]
pub enum Line {
    /// What a step did.
    Step(Told),
    /// The unread messages of a pair.
    Pair(Pair),
    /// The run's end.
    End,
}

/// What a step did.
#[derive(Debug, PartialEq)]
pub struct Told {
    /// The line as it is printed, without its newline.
    pub text: String,
    pub position: u64,
    pub kind: u8,
    /// The refusal's number, 0 where the step is accepted.
    pub number: u8,
    pub values: [u32; 3],
    /// The record, which is none where 2 or 3 refuses it.
    pub step: Option<Step>,
}

/// How many messages of a pair are unread at each place.
#[derive(Debug, PartialEq)]
pub struct Pair {
    pub sender: Rank,
    pub receiver: Rank,
    pub counts: [u32; 4],
}

/// The line as it is printed.
impl fmt::Display for Pair {
    fn fmt(&self, formatter: &mut fmt::Formatter<'_>) -> fmt::Result {
        write!(formatter, "pair {} {}", self.sender.0, self.receiver.0)?;
        let mut counts = self.counts.iter();
        counts.try_for_each(|count| write!(formatter, " {count}"))
    }
}

/// The lines of a run, with the log that they are about.
pub struct Lines<L, P> {
    log: BufReader<L>,
    printed: P,
    position: u64,
}

impl<L: Read, P: BufRead> Lines<L, P> {
    /// A run's lines from the first on.
    pub fn new(log: L, printed: P) -> Lines<L, P> {
        Lines {
            log: BufReader::new(log),
            printed,
            position: 0,
        }
    }

    /// The next line; none where the program printed no more.
    pub fn next_line(&mut self) -> Result<Option<Line>, Failure> {
        let mut text = String::new();
        match self.printed.read_line(&mut text) {
            Ok(0) => return Ok(None),
            Ok(_) => {}
            Err(error) => return Err(misfit(&error.to_string())),
        }
        let text = text.trim_end_matches('\n');
        if text == "end" {
            return Ok(Some(Line::End));
        }
        let line = match text.strip_prefix("pair ") {
            Some(pair) => pair_of(pair).map(Line::Pair),
            None => self.step_of(text).map(Line::Step),
        };
        line.map(Some).ok_or_else(|| misfit(text))
    }

    /// The step of a line, whose record is the next of the log.
    fn step_of(&mut self, text: &str) -> Option<Told> {
        let words: Vec<&str> = text.split(' ').collect();
        let [position, kind, number, v1, v2, v3] = words[..] else {
            return None;
        };
        let told = Told {
            text: text.to_owned(),
            position: position.parse().ok()?,
            kind: u8::from_str_radix(kind, 16).ok()?,
            number: number.parse().ok().filter(is_known)?,
            values: [v1.parse().ok()?, v2.parse().ok()?, v3.parse().ok()?],
            step: None,
        };
        let whole = !matches!(told.number, 2 | 3);
        let step = if whole {
            Some(self.read_record()?)
        } else {
            None
        };
        let fits = step.is_none_or(|step| step.kind() as u8 == told.kind);
        (fits && told.position + self.length_of(&told) == self.position)
            .then_some(Told { step, ..told })
    }

    /// How many bytes the record of a line has in the log that was read.
    fn length_of(&self, told: &Told) -> u64 {
        let kind = Kind::from_byte(told.kind).filter(|_| !matches!(told.number, 2 | 3));
        kind.map_or(0, |kind| kind.record_length() as u64)
    }

    /// The next record of the log.
    fn read_record(&mut self) -> Option<Step> {
        let step = next_record(&mut self.log).ok()??;
        self.position += step.kind().record_length() as u64;
        Some(step)
    }
}

impl<L, P: Read> Lines<L, &mut BufReader<P>> {
    /// Whether something of the next line has been read already, so that the
    /// rest of it is not long to come.
    pub fn has_more_at_hand(&self) -> bool {
        !self.printed.buffer().is_empty()
    }
}

/// The next record of a log, none at its end; an error where what stands there
/// is no whole record.
pub fn next_record(log: &mut impl BufRead) -> io::Result<Option<Step>> {
    let Some(&byte) = log.fill_buf()?.first() else {
        return Ok(None);
    };
    let length = Kind::from_byte(byte).map_or(1, Kind::record_length);
    let mut record = [0; Kind::LONGEST_RECORD];
    let record = &mut record[..length];
    log.read_exact(record)?;
    match Step::read(record) {
        Ok((step, _)) => Ok(Some(step)),
        Err(refusal) => Err(io::Error::other(refusal.meaning())),
    }
}

/// Whether this is the number of an accepted step or of a refusal.
fn is_known(number: &u8) -> bool {
    *number == 0 || Refusal::from_number(*number).is_some()
}

fn pair_of(text: &str) -> Option<Pair> {
    let words: Vec<&str> = text.split(' ').collect();
    let [sender, receiver, counts @ ..] = &words[..] else {
        return None;
    };
    let counts: Option<Vec<u32>> = counts.iter().map(|count| count.parse().ok()).collect();
    Some(Pair {
        sender: Rank(sender.parse().ok()?),
        receiver: Rank(receiver.parse().ok()?),
        counts: counts?.try_into().ok()?,
    })
}

fn misfit(text: &str) -> Failure {
    Failure::Told(format!(
        "the program printed what does not fit the log: {text}"
    ))
}
