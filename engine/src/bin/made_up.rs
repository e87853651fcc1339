//! Writes a made-up pass to standard output: `made-up SEED COUNT`, paper 02,
//! Change 1. What keeps it from that is told on standard error, with exit code
//! 1.

use engine::standard::plain_file;
use engine::MadeUp;
use std::env;
use std::ffi::OsStr;
use std::fmt::Display;
use std::io::{self, Write};
use std::process::ExitCode;
use std::str::FromStr;

/// A longer argument is not read.
const LONGEST_ARGUMENT: usize = 4_096;

fn main() -> ExitCode {
    match write_pass() {
        Ok(()) => ExitCode::SUCCESS,
        Err(problem) => {
            // Where even this cannot be written, the exit code still tells.
            let _ = writeln!(io::stderr(), "made-up: {problem}");
            ExitCode::FAILURE
        }
    }
}

fn write_pass() -> Result<(), String> {
    let mut arguments = env::args_os().skip(1);
    let (seed, count) = (arguments.next(), arguments.next());
    if arguments.next().is_some() {
        return Err("argument 3 is too much".to_owned());
    }
    let seed = seed.ok_or("argument 1, SEED, is missing")?;
    let count = count.ok_or("argument 2, COUNT, is missing")?;
    let seed = number("argument 1, SEED,", &seed, u32::MAX)?;
    let count = number("argument 2, COUNT,", &count, u64::MAX)?;
    let mut pass = MadeUp::new(seed).map_err(|refusal| refusal.to_string())?;
    plain_file(io::stdout())
        .and_then(|output| pass.write_to(count, output))
        .map_err(|_| "standard output cannot be written".to_owned())
}

/// The number that an argument gives in decimal digits, up to the highest of
/// its type.
fn number<N>(name: &str, argument: &OsStr, highest: N) -> Result<N, String>
where
    N: FromStr + Display,
{
    if argument.len() > LONGEST_ARGUMENT {
        return Err(format!("{name} is longer than {LONGEST_ARGUMENT} bytes"));
    }
    let is_decimal = |digits: &&str| digits.bytes().all(|byte| byte.is_ascii_digit());
    match argument.to_str().filter(is_decimal) {
        None | Some("") => Err(format!("{name} is no decimal number")),
        Some(digits) => digits
            .parse()
            .map_err(|_| format!("{name} is above {highest}")),
    }
}
