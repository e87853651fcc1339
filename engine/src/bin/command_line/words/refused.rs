//! A refused record: which refusal, what it means and what to do, in the words
//! of the table that docs/REFUSALS.md is held to.

use crate::steps::Told;
use engine::{Kind, Refusal};
use std::io::{self, Write};

/// Tells a refusal on two lines.
pub fn tell(told: &Told, refusal: Refusal, output: &mut impl Write) -> io::Result<()> {
    let (what, number) = (what_stands_there(told), refusal.number());
    let (meaning, remedy) = (refusal.meaning(), refusal.remedy());
    writeln!(output, "    {what} is refused with {number}: {meaning}.")?;
    writeln!(output, "    To do: {remedy}.")
}

/// The record; where it is none, its kind or the byte in place of a kind.
fn what_stands_there(told: &Told) -> String {
    match (told.step, Kind::from_byte(told.kind)) {
        (Some(step), _) => step.to_string(),
        (None, Some(kind)) => format!("{}, cut short,", kind.word()),
        (None, None) => format!("the byte {:02X}", told.kind),
    }
}
