//! Measures proved programs against Rust ones, `replay` against `engine-replay`
//! on the same logs and `made_up` against `made-up` on the same made-up pass,
//! and the calls of the library. It prints four tables in markdown: records per
//! second of processor time on each input, those of the pass, the time of each
//! call, and the memory that each program takes. It fails where the outputs
//! differ.

mod calls;
mod cost;
mod input;
mod looks;
mod made_up;
mod measure;
mod options;
mod pass;
mod refused;
mod runs;
mod table;

use measure::Folder;
use options::Options;
use std::io::{self, Write};
use std::process::ExitCode;

fn main() -> ExitCode {
    match measured() {
        Ok(tables) => {
            print!("{tables}");
            ExitCode::SUCCESS
        }
        Err(problem) => {
            // Where even this cannot be written, the exit code still tells.
            let _ = writeln!(io::stderr(), "bench: {problem}");
            ExitCode::FAILURE
        }
    }
}

/// The tables, or what kept them from being made.
fn measured() -> Result<String, String> {
    let options = Options::read()?;
    let programs = options.programs()?;
    let folder = Folder::make()?;
    let runs = runs::side_by_side(&folder, &programs.replay, options.records)?;
    let pass = made_up::side_by_side(&folder, &programs.made_up, options.records)?;
    let calls = calls::times(&folder, &programs.timing, options.records)?;
    let memory = table::memory_header() + &runs.memory + &pass.memory;
    Ok([runs.speed, pass.speed, calls, memory].join("\n"))
}
