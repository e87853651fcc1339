//! The tables in markdown.

use crate::cost::Cost;
use crate::input::Counts;
use crate::measure::Costs;
use std::borrow::Borrow;
use std::time::Duration;

/// Two programs side by side: the table of their speed, and their rows in the
/// table of memory.
pub struct SideBySide {
    pub speed: String,
    pub memory: String,
}

/// The columns of two programs' speed.
const SPEED: [&str; 3] = ["Proved, records/s", "Rust, records/s", "Rust / proved"];

pub fn runs_header() -> String {
    let counts = ["Records", "Accepted", "Refused", "Mean unread"];
    header("Input", &[&counts[..], &SPEED].concat())
}

/// What the runs of an input came to.
pub fn runs_row(name: &str, counts: &Counts, costs: &Costs) -> String {
    let numbers = [
        counts.records,
        counts.accepted,
        counts.refused(),
        counts.mean_unread(),
    ];
    let speed = speed(counts.records, costs);
    row(name, &[&numbers.map(grouped)[..], &speed].concat())
}

pub fn made_up_header() -> String {
    header("Made-up pass", &[&["Records"][..], &SPEED].concat())
}

/// What the pass of a seed came to.
pub fn made_up_row(seed: u32, records: u64, costs: &Costs) -> String {
    let speed = speed(records, costs);
    row(
        &format!("seed {seed}"),
        &[&[grouped(records)][..], &speed].concat(),
    )
}

/// What stands under the columns of speed, for so many records.
fn speed(records: u64, costs: &Costs) -> [String; 3] {
    let (proved, rust) = (costs.proved.time, costs.rust.time);
    let ratio = proved.as_secs_f64() / rust.as_secs_f64();
    [
        grouped(rate(records, proved)),
        grouped(rate(records, rust)),
        format!("{ratio:.2}"),
    ]
}

/// The time of a call has a column for each of these numbers unread.
pub fn calls_header<const COLUMNS: usize>(unread: [usize; COLUMNS]) -> String {
    let columns = unread.map(|unread| format!("{} unread, µs", grouped(unread as u64)));
    header("Call", &columns)
}

/// The times of a call.
pub fn calls_row<const COLUMNS: usize>(name: &str, times: [f64; COLUMNS]) -> String {
    row(name, &times.map(|time| format!("{time:.3}")))
}

pub fn memory_header() -> String {
    header("Program", &["Peak memory, KiB", "State, bytes"])
}

/// The most memory that a program comes to, and what the state takes of it.
pub fn memory_row(program: &str, most: Cost, state: usize) -> String {
    row(program, &[most.memory_kib, state as u64].map(grouped))
}

/// The columns' names; all but the first are columns of numbers.
fn header(name: &str, columns: &[impl Borrow<str>]) -> String {
    let numbers = "---:|".repeat(columns.len());
    format!("{}|---|{numbers}\n", row(name, columns))
}

fn row(name: &str, cells: &[impl Borrow<str>]) -> String {
    format!("| {name} | {} |\n", cells.join(" | "))
}

fn rate(records: u64, time: Duration) -> u64 {
    (records as f64 / time.as_secs_f64()) as u64
}

/// A number with a comma after each group of three digits.
fn grouped(number: u64) -> String {
    let digits = number.to_string();
    let mut text = String::new();
    for (index, digit) in digits.chars().enumerate() {
        if index > 0 && (digits.len() - index).is_multiple_of(3) {
            text.push(',');
        }
        text.push(digit);
    }
    text
}
