//! A run told in words: each printed line as it stands, below it what the
//! record did in paper 01's words, and at the end a summary. Lines of words
//! are indented, so that the others are the printed run.

mod accepted;
mod counted;
mod open_moves;
mod refused;
mod summary;

use crate::failure::Failure;
use crate::running::Running;
use crate::steps::{Line, Lines, Told};
use engine::standard::plain_file;
use engine::Refusal;
use open_moves::OpenMoves;
use std::fs::File;
use std::io::{self, BufWriter, Write};
use summary::Summary;

/// How much is written at once while lines keep coming.
const WRITTEN_AT_ONCE: usize = 65_536;

/// Tells a run on standard output.
pub fn tell(mut running: Running) -> Result<(), Failure> {
    let mut telling = Telling {
        output: BufWriter::with_capacity(WRITTEN_AT_ONCE, plain_file(io::stdout())?),
        moves: OpenMoves::default(),
        summary: Summary::default(),
    };
    let ended = telling.tell_lines(&mut running)?;
    telling.output.flush()?;
    running.end()?;
    if !ended {
        return Err(Failure::Told(NO_END.to_owned()));
    }
    telling.tell_summary()
}

/// What is said of a run that has no last line.
const NO_END: &str = "the program stopped before the run's end";

/// A run that is being told: where to, and what it has come to so far.
struct Telling {
    output: BufWriter<File>,
    moves: OpenMoves,
    summary: Summary,
}

impl Telling {
    /// Tells the lines up to the run's end, and whether that came. What is
    /// told is written out before the next line is waited for.
    fn tell_lines(&mut self, running: &mut Running) -> Result<bool, Failure> {
        let mut lines = Lines::new(&mut running.log, &mut running.printed);
        while let Some(line) = lines.next_line()? {
            match line {
                Line::Step(told) => self.tell_step(&told)?,
                Line::Pair(pair) => {
                    writeln!(self.output, "{pair}")?;
                    self.summary.add_pair(pair);
                }
                Line::End => return Ok(true),
            }
            if !lines.has_more_at_hand() {
                self.output.flush()?;
            }
        }
        Ok(false)
    }

    fn tell_step(&mut self, told: &Told) -> io::Result<()> {
        writeln!(self.output, "{}", told.text)?;
        match Refusal::from_number(told.number) {
            Some(refusal) => refused::tell(told, refusal, &mut self.output)?,
            None => {
                let step = told.step.expect("an accepted record is whole");
                let sentences = accepted::sentences(step, told.values, &self.moves);
                let indented = sentences.replace('\n', "\n    ");
                writeln!(self.output, "    {step}: {indented}")?;
                self.moves.follow(step, told.values);
            }
        }
        self.summary.add_step(told);
        Ok(())
    }

    /// The summary stands below the printed run's last line.
    fn tell_summary(&mut self) -> Result<(), Failure> {
        writeln!(self.output, "end")?;
        for line in self.summary.lines(&self.moves) {
            writeln!(self.output, "    {line}")?;
        }
        Ok(self.output.flush()?)
    }
}
