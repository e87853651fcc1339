//! A made-up pass, paper 02, Change 1: both programs that write one, with the
//! same seed and count.

use crate::measure::{Counterparts, Folder};
use crate::table::{self, SideBySide};
use engine::MadeUp;

const SEED: u32 = 1;

/// A pass has so many times more records than an input of the runs: a record
/// is made up in a fraction of the time in which it is run.
const TIMES_MORE: usize = 10;

/// The bytes of the word at which the proved generator stands, by its type.
const PROVED_STATE: usize = 4;

/// Both programs on one pass, beside runs of so many records each.
pub fn side_by_side(
    folder: &Folder,
    programs: &Counterparts,
    records: usize,
) -> Result<SideBySide, String> {
    let records = (TIMES_MORE * records) as u64;
    let arguments = [SEED.to_string(), records.to_string()];
    let costs = folder
        .measure(programs, &arguments, &[])
        .map_err(|problem| format!("a made-up pass: {problem}"))?;
    let speed = table::made_up_header() + &table::made_up_row(SEED, records, &costs);
    let memory = table::memory_row("`made_up`, proved", costs.proved, PROVED_STATE)
        + &table::memory_row("`made-up`, Rust", costs.rust, size_of::<MadeUp>());
    Ok(SideBySide { speed, memory })
}
