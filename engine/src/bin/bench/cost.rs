//! What a run of a program costs: its time on a processor, and the most memory
//! that it has resident, both as the system tells them.

use std::fs::{self, File};
use std::io;
use std::path::Path;
use std::process::{Child, Command};
use std::thread;
use std::time::{Duration, Instant};

/// A running program is looked at so often.
const LOOKS_APART: Duration = Duration::from_millis(1);

/// The least time and the most memory of some runs.
#[derive(Clone, Copy)]
pub struct Cost {
    pub time: Duration,
    pub memory_kib: u64,
}

impl Cost {
    /// The cost of no runs.
    pub const OF_NONE: Cost = Cost {
        time: Duration::MAX,
        memory_kib: 0,
    };

    /// The cost of these runs and others.
    pub fn and(self, other: Cost) -> Cost {
        Cost {
            time: self.time.min(other.time),
            memory_kib: self.memory_kib.max(other.memory_kib),
        }
    }

    /// Runs a program on an input, with its output in a file. Where the system
    /// tells no time on a processor, the time is that on the clock.
    pub fn of_run(
        program: &Path,
        arguments: &[String],
        input: &Path,
        output: &Path,
    ) -> Result<Cost, String> {
        let failed = |error: io::Error| format!("cannot run {}: {error}", program.display());
        let (input, output) = (File::open(input), File::create(output));
        let mut command = Command::new(program);
        command.args(arguments).stdin(input.map_err(failed)?);
        command.stdout(output.map_err(failed)?);
        let begun = Instant::now();
        let mut child = command.spawn().map_err(failed)?;
        let (on_processor, memory_kib) = watch(&child);
        let status = child.wait().map_err(failed)?;
        let on_clock = begun.elapsed();
        if !status.success() {
            return Err(format!("{} ended with {status}", program.display()));
        }
        Ok(Cost {
            time: on_processor.unwrap_or(on_clock),
            memory_kib,
        })
    }
}

/// Looks at a program until it has ended, but does not wait for it, so that
/// the system still tells of it: its time on a processor, and its memory.
fn watch(child: &Child) -> (Option<Duration>, u64) {
    let told = |file: &str| fs::read_to_string(format!("/proc/{}/{file}", child.id())).ok();
    let mut memory_kib = 0;
    while told("stat").is_some_and(|stat| !has_ended(&stat)) {
        let peak = told("status").and_then(|status| peak_kib(&status));
        memory_kib = peak.unwrap_or(memory_kib);
        thread::sleep(LOOKS_APART);
    }
    let time = told("schedstat").and_then(|schedstat| processor_time(&schedstat));
    (time, memory_kib)
}

/// `1234 (name) Z ...`: the letter behind the name is Z once it has ended.
fn has_ended(stat: &str) -> bool {
    let state = stat.rsplit_once(") ").map(|(_, rest)| rest);
    state.is_none_or(|state| state.starts_with('Z'))
}

/// The line `VmHWM: 1234 kB`.
fn peak_kib(status: &str) -> Option<u64> {
    let mut lines = status.lines();
    let peak = lines.find_map(|line| line.strip_prefix("VmHWM:"))?;
    peak.trim().strip_suffix(" kB")?.parse().ok()
}

/// The first number is nanoseconds on a processor.
fn processor_time(schedstat: &str) -> Option<Duration> {
    let first = schedstat.split(' ').next()?;
    first.parse().ok().map(Duration::from_nanos)
}
