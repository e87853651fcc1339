//! The comparison itself: all logs, some programs at a time, then the counts of
//! what they reached, printed and left in `comparison.txt` in the target
//! folder.

use crate::expected::Expected;
use crate::log::Log;
use crate::program::{Input, Program};
use crate::tally::Tally;
use crate::{
    full_pair, garbage, limits, looks, made_up, paper, probes, random, restarts, running_numbers,
    short_records, two_checks, window,
};
use engine::text::decode;
use std::fs::{self, File};
use std::path::{Path, PathBuf};
use std::sync::atomic::{AtomicUsize, Ordering};
use std::sync::{LazyLock, Mutex};
use std::thread;

/// So many programs are run at a time.
const WORKERS: usize = 4;

/// So many different logs are reported; then the comparison stops.
const ENOUGH: usize = 5;

const SCRATCH: &str = env!("CARGO_TARGET_TMPDIR");

/// All logs, the longest first, so that all workers are busy to the end.
static LOGS: LazyLock<Vec<Log>> = LazyLock::new(|| {
    [
        short_records::logs(),
        limits::logs(),
        two_checks::logs(),
        window::logs(),
        running_numbers::logs(),
        looks::logs(),
        made_up::logs(),
        full_pair::logs(),
        probes::logs(),
        paper::logs(),
        restarts::logs(),
        random::logs(),
        garbage::logs(),
    ]
    .concat()
});

/// What all logs reach.
static REACHED: LazyLock<Tally> = LazyLock::new(|| Tally::of(&LOGS));

/// Runs the program on a log. It fails unless it prints what it should, says
/// nothing else and ends well.
fn compare(program: &Program, log: &Log, scratch: &Path) -> Result<(), String> {
    let expected = Expected::of(&log.bytes);
    let input = match log.feed.pieces(&log.bytes) {
        Some(lengths) => Input::Pipe(&log.bytes, lengths),
        None => {
            fs::write(scratch, &log.bytes).map_err(|error| error.to_string())?;
            Input::File(File::open(scratch).map_err(|error| error.to_string())?)
        }
    };
    let output = program.run(input, 2 * expected.printed.len() + 4_096)?;
    if let Some(difference) = expected.difference(&output.stdout) {
        return Err(difference);
    }
    if !output.stderr.is_empty() {
        let report = String::from_utf8_lossy(&output.stderr);
        return Err(format!("standard error: {}", report.trim_end()));
    }
    if !output.status.success() {
        return Err(format!("ended with {}", output.status));
    }
    Ok(())
}

/// Compares on the next logs of the list until it ends or enough differ.
fn work(program: &Program, worker: usize, next: &AtomicUsize, found: &Mutex<Vec<String>>) {
    let scratch = Path::new(SCRATCH).join(format!("compare-{worker}.log"));
    while let Some(log) = LOGS.get(next.fetch_add(1, Ordering::Relaxed)) {
        if let Err(difference) = compare(program, log, &scratch) {
            let place = keep(log);
            let (name, feed) = (&log.name, log.feed);
            let report = format!("{name} ({feed:?}, kept as {place}): {difference}");
            let mut found = found.lock().unwrap();
            found.push(report);
            if found.len() >= ENOUGH {
                next.store(LOGS.len(), Ordering::Relaxed);
            }
        }
    }
}

/// Keeps a log on which the program differs, as it is and as text.
fn keep(log: &Log) -> String {
    let path = Path::new(SCRATCH).join(format!("differs-{}.log", log.name));
    fs::write(&path, &log.bytes).unwrap();
    fs::write(path.with_extension("txt"), decode(&log.bytes)).unwrap();
    path.display().to_string()
}

fn compare_all(program: &Program) -> Vec<String> {
    let next = AtomicUsize::new(0);
    let found = Mutex::new(Vec::new());
    thread::scope(|scope| {
        for worker in 0..WORKERS {
            let (next, found) = (&next, &found);
            scope.spawn(move || work(program, worker, next, found));
        }
    });
    found.into_inner().unwrap()
}

fn report_place() -> PathBuf {
    Path::new(SCRATCH).with_file_name("comparison.txt")
}

#[test]
fn logs_reach_every_answer() {
    REACHED.check();
}

#[test]
fn program_prints_every_log_alike() {
    // An earlier report must not stand for this run.
    let _ = fs::remove_file(report_place());
    let Some(program) = Program::find() else {
        return;
    };
    let found = compare_all(&program);
    assert!(found.is_empty(), "differences:\n{}", found.join("\n"));
    let report = format!(
        "program: {}\n{}\nof these, where two checks apply:\n{}\nof these, made-up passes:\n{}",
        program.path.display(),
        REACHED.report(),
        two_checks::report(),
        Tally::of(&made_up::logs()).answers_report()
    );
    print!("{report}");
    fs::write(report_place(), report).unwrap();
}
