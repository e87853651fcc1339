//! The made-up pass of paper 02, Change 1: a proved program, the generator,
//! writes its log, which is replayed or printed as a text log while it comes.

use crate::failure::Failure;
use crate::input::Log;
use crate::options::Pass;
use crate::replay;
use crate::running::{spawn, unreadable, Program, Reader};
use crate::steps::next_record;
use engine::standard::plain_file;
use std::io::{self, BufRead, BufReader, BufWriter, Read, Write};
use std::path::Path;
use std::process::{ChildStdout, Command, Stdio};

/// How much of a pass, and of its text, is in memory at once.
const PIECE_BYTES: usize = 65_536;

/// Replays a pass onto standard output. Where the generator refuses it, it
/// writes nothing: so its first byte is awaited before a run is begun.
pub fn replay(replay: &Path, made_up: &Path, pass: Pass) -> Result<(), Failure> {
    let mut generator = Generator::start(made_up, pass)?;
    match generator.log.fill_buf() {
        Ok([]) => {
            generator.end()?;
            replay::replay(replay, Log::Handed(Box::new(io::empty())))
        }
        Ok(_) => {
            let replayed = replay_all(replay, &mut generator.log);
            generator.end_after(replayed)
        }
        Err(error) => generator.end_after(Err(unreadable(&error))),
    }
}

/// Prints a pass as a text log, record by record.
pub fn print_text(made_up: &Path, pass: Pass) -> Result<(), Failure> {
    let output = BufWriter::with_capacity(PIECE_BYTES, plain_file(io::stdout())?);
    let mut generator = Generator::start(made_up, pass)?;
    let printed = print_records(&mut generator.log, output);
    generator.end_after(printed)
}

/// The generator at work, and the log that it writes.
struct Generator {
    program: Program,
    log: BufReader<ChildStdout>,
}

/// How much of a log was made use of.
enum Used {
    Whole,
    Part,
}

impl Generator {
    fn start(made_up: &Path, pass: Pass) -> Result<Generator, Failure> {
        let mut command = Command::new(made_up);
        command.args([pass.seed.to_string(), pass.count.to_string()]);
        let mut child = spawn(&mut command, Stdio::null(), Stdio::piped())?;
        let log = child.stdout.take().expect("standard output is piped");
        Ok(Generator {
            program: Program::watched(child, Reader::ToTheEnd),
            log: BufReader::with_capacity(PIECE_BYTES, log),
        })
    }

    /// Waits for its end, after the log's. A signal has cut the pass short.
    fn end(self) -> Result<(), Failure> {
        let status = self.program.end()?;
        if status.success() {
            return Ok(());
        }
        let problem = format!("the generator stopped before the pass's end: {status}");
        Err(Failure::Told(problem))
    }

    /// Its end after what was done with the log: it ends by itself only behind
    /// the whole log.
    fn end_after(self, used: Result<Used, Failure>) -> Result<(), Failure> {
        match used {
            Ok(Used::Whole) => self.end(),
            Ok(Used::Part) => self.program.stop(),
            Err(failure) => self.program.stop().and(Err(failure)),
        }
    }
}

/// Hands a log to the program that replays it, as far as that reads it.
fn replay_all(replay: &Path, log: &mut impl Read) -> Result<Used, Failure> {
    let mut child = spawn(&mut Command::new(replay), Stdio::piped(), Stdio::inherit())?;
    let mut input = child.stdin.take().expect("standard input is piped");
    let program = Program::watched(child, Reader::Beyond);
    let copied = io::copy(log, &mut input);
    drop(input);
    program.end()?;
    Ok(copied.map_or(Used::Part, |_| Used::Whole))
}

fn print_records(log: &mut impl BufRead, mut output: impl Write) -> Result<Used, Failure> {
    while let Some(step) = next_record(log).map_err(|error| unreadable(&error))? {
        writeln!(output, "{step}")?;
    }
    output.flush()?;
    Ok(Used::Whole)
}
