//! What a command line asks for.

use crate::failure::Failure;
use std::ffi::{OsStr, OsString};
use std::path::PathBuf;
use std::str::FromStr;

/// The whole usage, for `--help` and for wrong arguments.
pub const USAGE: &str = "\
./run                            replays the listing of paper 01
./run FILE                       replays a log
./run --text FILE                replays a text log, one record a line
./run --words FILE               tells in words what each step of a log or a text log did
./run --picture FILE             draws a log or a text log: an SVG on standard output
./run --picture FILE FROM TO     draws its steps FROM to TO, counted from 1
./run --made SEED COUNT          replays a made-up pass: COUNT records drawn from the number SEED
./run --made SEED COUNT --text   prints that pass as a text log
./run --version                  tells the commit and the kit
./run --help, ./run -h           prints these lines
FILE may be -, which is standard input; a file whose name begins with - is given as ./-NAME
";

/// Where a log comes from.
#[derive(Debug, PartialEq)]
pub enum Source {
    /// The listing of paper 01.
    Listing,
    /// Standard input.
    Standard,
    /// A file.
    File(PathBuf),
}

/// A made-up pass: the number that it is drawn from, and how many records it
/// has. Which seeds there is no pass of is the generator's to say.
#[derive(Clone, Copy, Debug, PartialEq)]
pub struct Pass {
    pub seed: u32,
    pub count: u64,
}

/// What is asked for.
#[derive(Debug, PartialEq)]
pub enum Request {
    Help,
    Version,
    Replay(Source),
    Text(Source),
    Words(Source),
    /// With the first and the last step to be drawn, counted from 1.
    Picture(Source, Option<(u64, u64)>),
    /// A made-up pass, replayed.
    Made(Pass),
    /// A made-up pass as a text log.
    MadeText(Pass),
}

/// What the arguments ask for.
pub fn parse(arguments: &[OsString]) -> Result<Request, Failure> {
    let Some((first, rest)) = arguments.split_first() else {
        return Ok(Request::Replay(Source::Listing));
    };
    match first.to_str() {
        Some("--help" | "-h") => alone(first, rest, Request::Help),
        Some("--version") => alone(first, rest, Request::Version),
        Some("--text") => one_file(first, rest).map(Request::Text),
        Some("--words") => one_file(first, rest).map(Request::Words),
        Some("--picture") => picture(first, rest),
        Some("--made") => made(first, rest),
        _ => alone(first, rest, Request::Replay(source(first)?)),
    }
}

fn alone(first: &OsStr, rest: &[OsString], request: Request) -> Result<Request, Failure> {
    match rest.first() {
        None => Ok(request),
        Some(extra) => Err(too_much(extra, first)),
    }
}

fn one_file(option: &OsStr, rest: &[OsString]) -> Result<Source, Failure> {
    match rest {
        [] => Err(usage(format!("{} needs a file", option.display()))),
        [file] => source(file),
        [_, extra, ..] => Err(too_much(extra, option)),
    }
}

fn picture(option: &OsStr, rest: &[OsString]) -> Result<Request, Failure> {
    let [file, from, to, extra @ ..] = rest else {
        return match rest {
            [_, from] => Err(usage(format!("'{}' needs the last step", from.display()))),
            _ => one_file(option, rest).map(|source| Request::Picture(source, None)),
        };
    };
    if let Some(extra) = extra.first() {
        return Err(too_much(extra, to));
    }
    let range = (step_number(from)?, step_number(to)?);
    if range.0 > range.1 {
        let (from, to) = range;
        return Err(usage(format!("step {from} comes after step {to}")));
    }
    Ok(Request::Picture(source(file)?, Some(range)))
}

/// The number of a step, counted from 1.
fn step_number(word: &OsStr) -> Result<u64, Failure> {
    let number = decimal(word).filter(|&number| number > 0);
    number.ok_or_else(|| {
        usage(format!(
            "'{}' is no step: steps are counted from 1",
            word.display()
        ))
    })
}

fn made(option: &OsStr, rest: &[OsString]) -> Result<Request, Failure> {
    let [seed, count, form @ ..] = rest else {
        return Err(usage(match rest {
            [seed] => format!("'{}' needs a count", seed.display()),
            _ => format!("{} needs a seed and a count", option.display()),
        }));
    };
    let request = match form {
        [] => Request::Made,
        [text] if text == "--text" => Request::MadeText,
        [text, extra, ..] if text == "--text" => return Err(too_much(extra, text)),
        [extra, ..] => return Err(too_much(extra, count)),
    };
    Ok(request(Pass {
        seed: decimal(seed).ok_or_else(|| no_number(seed, "seed", u32::MAX.into()))?,
        count: decimal(count).ok_or_else(|| no_number(count, "count", u64::MAX))?,
    }))
}

fn no_number(word: &OsStr, sort: &str, highest: u64) -> Failure {
    let word = word.display();
    usage(format!(
        "'{word}' is no {sort}: {sort}s are decimal numbers up to {highest}"
    ))
}

/// The number of some decimal digits, without a sign.
fn decimal<N: FromStr>(word: &OsStr) -> Option<N> {
    let word = word.to_str()?;
    let plain = word.bytes().all(|byte| byte.is_ascii_digit());
    plain.then(|| word.parse().ok())?
}

/// The source that a word names; a word that begins with - is no file.
fn source(word: &OsStr) -> Result<Source, Failure> {
    if word == "-" {
        return Ok(Source::Standard);
    }
    if word.is_empty() {
        return Err(usage("a file's name is empty".to_owned()));
    }
    if word.as_encoded_bytes().starts_with(b"-") {
        return Err(usage(format!("unknown option '{}'", word.display())));
    }
    Ok(Source::File(PathBuf::from(word)))
}

fn too_much(extra: &OsStr, before: &OsStr) -> Failure {
    let (extra, before) = (extra.display(), before.display());
    usage(format!("'{extra}' is too much after '{before}'"))
}

fn usage(problem: String) -> Failure {
    Failure::Usage(problem)
}
