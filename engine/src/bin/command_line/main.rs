//! The command line of `./run`, which passes on the repository's root and its
//! own arguments. The proved programs make every run and every made-up pass;
//! here they are built where they are missing or old and given their input,
//! and what they print is passed on, told in words or drawn.

mod failure;
mod input;
mod made;
mod options;
mod picture;
mod proved;
mod replay;
mod running;
mod steps;
mod version;
mod words;

use failure::Failure;
use input::Input;
use options::{Request, USAGE};
use proved::{proved_program, MADE_UP, REPLAY};
use std::env;
use std::ffi::OsString;
use std::io::{self, Write};
use std::path::Path;
use std::process::ExitCode;

fn main() -> ExitCode {
    let arguments: Vec<OsString> = env::args_os().skip(1).collect();
    let served = match arguments.split_first() {
        Some((root, asked)) => serve(Path::new(root), asked),
        None => Err(Failure::Usage(
            "the repository's root is missing".to_owned(),
        )),
    };
    match served {
        Ok(()) => ExitCode::SUCCESS,
        Err(failure) => failure.told(),
    }
}

fn serve(root: &Path, asked: &[OsString]) -> Result<(), Failure> {
    match options::parse(asked)? {
        Request::Help => print(USAGE),
        Request::Version => print(&version::told(root)),
        Request::Replay(source) => {
            let input = Input::open(&source, root)?;
            if input.looks_like_text() {
                let name = input.name();
                let hint = format!("{name} looks like a text log, which ./run --text replays");
                // The run says the rest: its first line has refusal 2.
                let _ = writeln!(io::stderr(), "{hint}");
            }
            replay::replay(&proved_program(root, REPLAY)?, input.into_log())
        }
        Request::Text(source) => {
            let log = Input::open(&source, root)?.into_log_of_text()?;
            replay::replay(&proved_program(root, REPLAY)?, log)
        }
        Request::Words(source) => {
            let log = Input::open(&source, root)?.into_log_of_either()?;
            words::tell(running::start(&proved_program(root, REPLAY)?, log)?)
        }
        Request::Picture(source, range) => {
            let log = Input::open(&source, root)?.into_log_of_either()?;
            picture::draw(running::start(&proved_program(root, REPLAY)?, log)?, range)
        }
        Request::Made(pass) => {
            let replay = proved_program(root, REPLAY)?;
            made::replay(&replay, &proved_program(root, MADE_UP)?, pass)
        }
        Request::MadeText(pass) => made::print_text(&proved_program(root, MADE_UP)?, pass),
    }
}

fn print(text: &str) -> Result<(), Failure> {
    Ok(engine::standard::plain_file(io::stdout())?.write_all(text.as_bytes())?)
}
