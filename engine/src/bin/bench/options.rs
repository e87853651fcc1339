//! What the command line asks for.

use crate::measure::Counterparts;
use std::env;
use std::ffi::OsString;
use std::path::PathBuf;
use std::process::Command;

const USAGE: &str = "usage: bench [--records COUNT] [--replay PROGRAM] [--engine-replay PROGRAM] \
    [--made-up PROGRAM] [--engine-made-up PROGRAM] [--timing PROGRAM]";

const FOLDER: &str = env!("CARGO_MANIFEST_DIR");

/// Where nothing else is asked for, 2,000,000 records, the proved programs at
/// their usual place, and the Rust ones built anew in release.
pub struct Options {
    pub records: usize,
    replay: Option<PathBuf>,
    engine_replay: Option<PathBuf>,
    made_up: Option<PathBuf>,
    engine_made_up: Option<PathBuf>,
    timing: Option<PathBuf>,
}

/// The programs to measure: those that print runs, those that write made-up
/// passes, and the one that makes the library's calls.
pub struct Programs {
    pub replay: Counterparts,
    pub made_up: Counterparts,
    pub timing: PathBuf,
}

impl Options {
    pub fn read() -> Result<Options, String> {
        let mut options = Options {
            records: 2_000_000,
            replay: None,
            engine_replay: None,
            made_up: None,
            engine_made_up: None,
            timing: None,
        };
        let mut arguments = env::args_os().skip(1);
        while let Some(option) = arguments.next() {
            let value = arguments.next().ok_or(USAGE)?;
            match option.to_str() {
                Some("--records") => options.records = read_count(value)?,
                Some("--replay") => options.replay = Some(value.into()),
                Some("--engine-replay") => options.engine_replay = Some(value.into()),
                Some("--made-up") => options.made_up = Some(value.into()),
                Some("--engine-made-up") => options.engine_made_up = Some(value.into()),
                Some("--timing") => options.timing = Some(value.into()),
                _ => return Err(USAGE.to_owned()),
            }
        }
        Ok(options)
    }

    /// Whether a proved program is missing is known before a Rust one is built.
    pub fn programs(&self) -> Result<Programs, String> {
        let replay = proved_program(&self.replay, "replay")?;
        let made_up = proved_program(&self.made_up, "made_up")?;
        let timing = proved_program(&self.timing, "test_timing")?;
        Ok(Programs {
            replay: Counterparts {
                proved: replay,
                rust: rust_program(&self.engine_replay, "engine-replay")?,
            },
            made_up: Counterparts {
                proved: made_up,
                rust: rust_program(&self.engine_made_up, "made-up")?,
            },
            timing,
        })
    }
}

/// The program that is asked for, else the one of this name at its usual place.
fn proved_program(asked: &Option<PathBuf>, name: &str) -> Result<PathBuf, String> {
    let usual = || PathBuf::from(FOLDER).join(format!("../crates/{name}/out/{name}"));
    let program = asked.clone().unwrap_or_else(usual);
    if !program.is_file() {
        let place = program.display();
        return Err(format!(
            "there is no program at {place}; 'rt run' in crates/{name} builds it"
        ));
    }
    Ok(program)
}

fn read_count(value: OsString) -> Result<usize, String> {
    let count = value.to_str().and_then(|text| text.parse().ok());
    count.filter(|&count| count > 0).ok_or(USAGE.to_owned())
}

/// The program that is asked for, else the one of this name, built here:
/// `cargo run` builds the benchmark alone, and the others stand beside it.
fn rust_program(asked: &Option<PathBuf>, name: &str) -> Result<PathBuf, String> {
    if let Some(program) = asked {
        return Ok(program.clone());
    }
    let built = Command::new(env::var_os("CARGO").unwrap_or("cargo".into()))
        .args(["build", "--release", "--offline", "--quiet"])
        .args(["--bin", name])
        .current_dir(FOLDER)
        .status()
        .map_err(|error| format!("cannot run cargo: {error}"))?;
    if !built.success() {
        return Err(format!("{name} cannot be built"));
    }
    let here = env::current_exe().map_err(|error| error.to_string())?;
    Ok(here.with_file_name(name))
}
