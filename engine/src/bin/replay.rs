//! Reads a log from standard input, runs it from a fresh desk and prints the
//! run on standard output: paper 01, "The printed run". A log that cannot be
//! read to its end is reported on standard error, with exit code 1.

use engine::standard::plain_file;
use engine::{run_stream, RunError};
use std::io::{self, Write};
use std::process::ExitCode;

fn main() -> ExitCode {
    match replay() {
        Ok(()) => ExitCode::SUCCESS,
        Err(error) => {
            // Where even this cannot be written, the exit code still tells.
            let _ = writeln!(io::stderr(), "engine-replay: {error}");
            ExitCode::FAILURE
        }
    }
}

fn replay() -> Result<(), RunError> {
    let input = plain_file(io::stdin()).map_err(RunError::Read)?;
    let output = plain_file(io::stdout()).map_err(RunError::Write)?;
    run_stream(input, output)
}
