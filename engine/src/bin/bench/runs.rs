//! The printed runs: both programs on each input.

use crate::input::{inputs, Counts};
use crate::measure::{Costs, Counterparts, Folder};
use crate::table::{self, SideBySide};

/// The bytes in which the proved program keeps the state of a run, by its
/// types.
const PROVED_STATE: usize = 2 * 6_914 + 4 * 4_352 + 8 * 552;

/// Both programs on inputs with at least so many records each.
pub fn side_by_side(
    folder: &Folder,
    programs: &Counterparts,
    records: usize,
) -> Result<SideBySide, String> {
    let mut speed = table::runs_header();
    let mut most = Costs::OF_NONE;
    let mut rust_state = 0;
    for input in inputs(records) {
        let costs = folder
            .measure(programs, &[], &input.log)
            .map_err(|problem| format!("{}: {problem}", input.name))?;
        let counts = Counts::of(&input.log);
        speed += &table::runs_row(input.name, &counts, &costs);
        most = most.and(costs);
        rust_state = rust_state.max(counts.state_bytes);
    }
    let memory = table::memory_row("`replay`, proved", most.proved, PROVED_STATE)
        + &table::memory_row("`engine-replay`, Rust", most.rust, rust_state);
    Ok(SideBySide { speed, memory })
}
