//! A proved program at work: a log is handed to it, and what it prints is read
//! while the log goes on.

use crate::failure::Failure;
use crate::input::Log;
use engine::standard::plain_file;
use std::io::{self, BufReader, Cursor, ErrorKind, Read, Write};
use std::os::unix::fs::FileTypeExt;
use std::path::Path;
use std::process::{Child, ChildStderr, ChildStdin, ChildStdout, Command, ExitStatus, Stdio};
use std::sync::mpsc::{self, Receiver};
use std::thread::{self, JoinHandle};

/// How much of a log is handed on at once.
const PIECE_BYTES: usize = 65_536;

/// The program at work: the log that it gets, and what it prints of it.
pub struct Running {
    pub log: Pieces,
    pub printed: BufReader<ChildStdout>,
    program: Program,
}

/// A program itself, and what it says on standard error.
pub struct Program {
    child: Child,
    said: JoinHandle<Said>,
}

/// Who reads what a program prints.
#[derive(Clone, Copy)]
pub enum Reader {
    /// This program, to the end.
    ToTheEnd,
    /// This program, as far as it wants to.
    AsFarAsWanted,
    /// Whoever reads this program's own output.
    Beyond,
}

/// What a program has said.
enum Said {
    Nothing,
    /// What was passed on.
    Words,
    /// That its output cannot be written, since nobody reads that any more.
    ReaderGone,
}

/// How it says that its output cannot be written, behind its name.
const UNWRITABLE: &[u8] = b": standard output cannot be written\n";

/// A log that another thread hands to the program, piece by piece, for those
/// who read it beside the program.
pub struct Pieces {
    coming: Receiver<io::Result<Vec<u8>>>,
    piece: Cursor<Vec<u8>>,
}

/// Starts the program on a log, with its output piped.
pub fn start(program: &Path, log: Log) -> Result<Running, Failure> {
    let mut child = spawn(&mut Command::new(program), Stdio::piped(), Stdio::piped())?;
    let (pieces, coming) = mpsc::channel();
    let input = child.stdin.take().expect("standard input is piped");
    let printed = child.stdout.take().expect("standard output is piped");
    thread::spawn(move || {
        let heard = |piece: io::Result<&[u8]>| pieces.send(piece.map(<[u8]>::to_vec)).is_ok();
        hand_over(log.bytes(), input, heard);
    });
    Ok(Running {
        log: Pieces {
            coming,
            piece: Cursor::new(Vec::new()),
        },
        printed: BufReader::new(printed),
        program: Program::watched(child, Reader::AsFarAsWanted),
    })
}

/// Starts a program, with its standard error piped.
pub fn spawn(command: &mut Command, input: Stdio, output: Stdio) -> Result<Child, Failure> {
    command.stdin(input).stdout(output).stderr(Stdio::piped());
    command.spawn().map_err(|error| {
        let program = command.get_program().display();
        Failure::Told(format!("{program} cannot be run: {error}"))
    })
}

impl Running {
    /// Waits for the program's end; a log that could not be read to its end
    /// is a failure too.
    pub fn end(self) -> Result<(), Failure> {
        drop(self.printed);
        self.program.end()?;
        let unread = self.log.coming.try_iter().find_map(Result::err);
        unread.map_or(Ok(()), |error| Err(unreadable(&error)))
    }
}

impl Program {
    /// A program whose standard error is passed on.
    pub fn watched(mut child: Child, reader: Reader) -> Program {
        let said = child.stderr.take().expect("standard error is piped");
        Program {
            child,
            said: thread::spawn(move || pass_on(said, reader)),
        }
    }

    /// Waits for the program's end. It has no exit status of its own: it says
    /// what failed. Where its reader went away, that is no failure of its own.
    pub fn end(mut self) -> Result<ExitStatus, Failure> {
        let ended = self.child.wait();
        match self.said.join().expect("passing on does not panic") {
            Said::Words => return Err(Failure::SaidAlready),
            Said::ReaderGone => return Err(Failure::ReaderGone),
            Said::Nothing => {}
        }
        ended.map_err(|error| Failure::Told(format!("the program got lost: {error}")))
    }

    /// Ends the program, where nobody wants the rest of its work.
    pub fn stop(mut self) -> Result<(), Failure> {
        // Where it has ended by itself there is nothing to end.
        let _ = self.child.kill();
        self.end().map(|_| ())
    }
}

/// A log that could not be read to its end.
pub fn unreadable(error: &io::Error) -> Failure {
    Failure::Told(format!("the log cannot be read to its end: {error}"))
}

/// Passes on what the program says, but for what it says where nobody reads.
fn pass_on(mut said: ChildStderr, reader: Reader) -> Said {
    let mut text = Vec::new();
    let _ = said.read_to_end(&mut text);
    if text.is_empty() {
        return Said::Nothing;
    }
    if text.ends_with(UNWRITABLE) {
        match reader {
            Reader::AsFarAsWanted => return Said::Nothing,
            Reader::Beyond if is_gone() => return Said::ReaderGone,
            Reader::Beyond | Reader::ToTheEnd => {}
        }
    }
    let _ = io::stderr().write_all(&text);
    Said::Words
}

/// Whether nobody reads this program's output, which another one could not
/// write: to a pipe that is open a byte more could be written.
fn is_gone() -> bool {
    let Ok(mut output) = plain_file(io::stdout()) else {
        return false;
    };
    let kind = output.metadata().map(|output| output.file_type());
    let is_pipe = kind.is_ok_and(|kind| kind.is_fifo() || kind.is_socket());
    let is_broken = |error: io::Error| error.kind() == ErrorKind::BrokenPipe;
    is_pipe && output.write_all(b"\n").is_err_and(is_broken)
}

/// Hands a log to the program, and each piece before that to `heard`, which
/// says whether to go on. A program that reads no more has ended its run.
pub fn hand_over(
    mut log: impl Read,
    mut program: ChildStdin,
    mut heard: impl FnMut(io::Result<&[u8]>) -> bool,
) {
    let mut piece = vec![0; PIECE_BYTES];
    loop {
        match log.read(&mut piece) {
            Ok(0) => return,
            Ok(count) => {
                let piece = &piece[..count];
                if !heard(Ok(piece)) || program.write_all(piece).is_err() {
                    return;
                }
            }
            Err(error) if error.kind() == ErrorKind::Interrupted => {}
            Err(error) => {
                heard(Err(error));
                return;
            }
        }
    }
}

impl Read for Pieces {
    fn read(&mut self, buffer: &mut [u8]) -> io::Result<usize> {
        loop {
            let count = self.piece.read(buffer)?;
            if count > 0 || buffer.is_empty() {
                return Ok(count);
            }
            match self.coming.recv() {
                Ok(piece) => self.piece = Cursor::new(piece?),
                Err(mpsc::RecvError) => return Ok(0),
            }
        }
    }
}
