//! Turns the text form of a log into the log, and a log into its text:
//! `logtext encode < TEXT > LOG` and `logtext decode < LOG > TEXT`. A text
//! that is no log is reported on standard error, with exit code 1 and nothing
//! on standard output.

use engine::standard::plain_file;
use engine::text::{decode, encode, told};
use std::env;
use std::ffi::OsString;
use std::io::{self, Read, Write};
use std::process::ExitCode;

const USAGE: &str = "usage: logtext encode < TEXT > LOG, or logtext decode < LOG > TEXT";

fn main() -> ExitCode {
    match convert() {
        Ok(()) => ExitCode::SUCCESS,
        Err(problem) => {
            // Where even this cannot be written, the exit code still tells.
            let _ = writeln!(io::stderr(), "{problem}");
            ExitCode::FAILURE
        }
    }
}

fn convert() -> Result<(), String> {
    let arguments: Vec<OsString> = env::args_os().skip(1).collect();
    let output = match arguments.as_slice() {
        [way] if way == "encode" => {
            let text = read_input()?;
            encode(&String::from_utf8_lossy(&text)).map_err(|errors| told(&errors, ""))?
        }
        [way] if way == "decode" => decode(&read_input()?).into_bytes(),
        _ => return Err(USAGE.to_owned()),
    };
    write_output(&output).map_err(|error| format!("cannot write the output: {error}"))
}

fn read_input() -> Result<Vec<u8>, String> {
    let mut input = Vec::new();
    plain_file(io::stdin())
        .and_then(|mut file| file.read_to_end(&mut input))
        .map_err(|error| format!("cannot read the input: {error}"))?;
    Ok(input)
}

fn write_output(output: &[u8]) -> io::Result<()> {
    plain_file(io::stdout())?.write_all(output)
}
