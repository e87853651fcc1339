//! The texts of a picture, and how much room they need.

use super::story::{Story, OPEN};
use crate::steps::Told;
use engine::{Host, Kind, Vmid};

/// The width of a wide letter.
const LETTER: i32 = 7;

/// A blank between two things.
pub const BLANK: i32 = 10;

/// The least widths of a bar and of the gap between two columns.
const LEAST_BAR: i32 = 48;
const LEAST_GAP: i32 = 64;

fn widest(texts: impl Iterator<Item = String>) -> i32 {
    let longest = texts.map(|text| text.len()).max();
    longest.unwrap_or(0) as i32 * LETTER
}

/// The width of a bar, which has names and read values on it.
pub fn bar(story: &Story) -> i32 {
    let names = story.processes.iter().map(|process| name(process.vmid));
    let values = story.tracks.iter().filter_map(|track| track.value);
    let texts = names.chain(values.map(|value| value.to_string()));
    LEAST_BAR.max(widest(texts) + 2 * BLANK)
}

/// The width of a gap, which has sent values and the names of processes on it.
pub fn gap(story: &Story) -> i32 {
    LEAST_GAP.max(bar(story))
}

/// The room below the last row for the values that are still unread.
pub fn below(story: &Story) -> i32 {
    let unread = story.tracks.iter().filter(|track| track.to == OPEN);
    let texts = unread.map(|track| track.value.map_or(String::new(), |value| value.to_string()));
    match widest(texts) {
        0 => 0,
        width => width + BLANK,
    }
}

/// Where the texts of the margin stand: numbers end at the first, positions at
/// the second, records begin at the third, and refusals are at the fourth.
pub fn margin(story: &Story) -> [i32; 4] {
    let last = story.first + story.rows.len() as u64;
    let positions = story.rows.iter().map(|told| told.position.to_string());
    let numbers = BLANK + widest(["step".to_owned(), last.to_string()].into_iter());
    let positions = numbers + BLANK + widest(positions.chain(["at".to_owned()]));
    let records = positions + BLANK;
    let refusals = records + widest(story.rows.iter().map(record)) + BLANK;
    [numbers, positions, records, refusals]
}

/// The text of a step's record; where 2 or 3 refuses it, only its kind is known.
pub fn record(told: &Told) -> String {
    match (told.step, Kind::from_byte(told.kind)) {
        (Some(step), _) => step.to_string(),
        (None, Some(kind)) => format!("{} ..", kind.word()),
        (None, None) => format!("bytes {:02x} ..", told.kind),
    }
}

/// The name of a process: its host, and its number there.
pub fn name(vmid: Vmid) -> String {
    format!("{}.{}", vmid.host().0, vmid.number())
}

/// The process that two values of an answer name.
pub fn named_by(host: u32, number: u32) -> Vmid {
    Vmid(Host(host as u8), number as u16)
}
