//! The log that a request is about: where it is read from, and whether it is
//! a log or its text.

use crate::failure::Failure;
use crate::options::Source;
use engine::standard::plain_file;
use engine::text::{encode, told};
use std::fs::File;
use std::io::{self, Cursor, ErrorKind, Read, Seek};
use std::os::unix::fs::FileExt;
use std::path::Path;

/// How many bytes are looked at to tell a text from a log.
const LOOKED_AT: usize = 4_096;

/// What some editors put before a text.
const BYTE_ORDER_MARK: &[u8] = "\u{FEFF}".as_bytes();

/// An opened input, with its first bytes.
pub struct Input {
    name: String,
    file: File,
    head: Vec<u8>,
    /// The first bytes were read ahead from something that can't go back.
    taken: bool,
}

/// A log, as the proved program gets it.
pub enum Log {
    /// A file that the program reads by itself.
    Whole(File),
    /// Bytes that are handed to it.
    Handed(Box<dyn Read + Send>),
}

impl Log {
    /// Its bytes, from the first on.
    pub fn bytes(self) -> Box<dyn Read + Send> {
        match self {
            Log::Whole(file) => Box::new(file),
            Log::Handed(bytes) => bytes,
        }
    }
}

impl Input {
    /// Opens a source and looks at its first bytes.
    pub fn open(source: &Source, root: &Path) -> Result<Input, Failure> {
        let (name, opened) = match source {
            Source::Listing => {
                let path = root.join("crates/replay/stdin");
                ("the listing".to_owned(), File::open(path))
            }
            Source::Standard => ("standard input".to_owned(), plain_file(io::stdin())),
            Source::File(path) => (path.display().to_string(), File::open(path)),
        };
        let looked = opened.and_then(|mut file| {
            let taken = !file.metadata()?.is_file();
            let head = if taken {
                read_ahead(&mut file)?
            } else {
                look_ahead(&mut file)?
            };
            Ok((file, head, taken))
        });
        match looked {
            Ok((file, head, taken)) => Ok(Input {
                name,
                file,
                head,
                taken,
            }),
            Err(error) => Err(unreadable(&name, &error)),
        }
    }

    /// What the input is called.
    pub fn name(&self) -> &str {
        &self.name
    }

    /// Whether its first byte, beside blanks and a byte-order mark, is
    /// printable; no kind is. Two kinds, 09 and 0A, are blanks themselves, so
    /// the line of that byte may have none but letters.
    pub fn looks_like_text(&self) -> bool {
        let head = self
            .head
            .strip_prefix(BYTE_ORDER_MARK)
            .unwrap_or(&self.head);
        let mut line = head
            .iter()
            .skip_while(|byte| is_blank(**byte))
            .take_while(|byte| **byte != b'\n');
        line.next().is_some_and(u8::is_ascii_graphic)
            && line.all(|&byte| is_blank(byte) || !byte.is_ascii_control())
    }

    /// The log of an input that is one.
    pub fn into_log(self) -> Log {
        if self.taken {
            Log::Handed(Box::new(Cursor::new(self.head).chain(self.file)))
        } else {
            Log::Whole(self.file)
        }
    }

    /// The log of a text.
    pub fn into_log_of_text(self) -> Result<Log, Failure> {
        let name = self.name.clone();
        let mut text = Vec::new();
        let read = self.into_log().bytes().read_to_end(&mut text);
        read.map_err(|error| unreadable(&name, &error))?;
        match encode(&String::from_utf8_lossy(&text)) {
            Ok(log) => Ok(Log::Handed(Box::new(Cursor::new(log)))),
            Err(errors) => Err(Failure::Told(told(&errors, &format!("{name}, ")))),
        }
    }

    /// The log of either.
    pub fn into_log_of_either(self) -> Result<Log, Failure> {
        if self.looks_like_text() {
            self.into_log_of_text()
        } else {
            Ok(self.into_log())
        }
    }
}

fn unreadable(name: &str, error: &io::Error) -> Failure {
    Failure::Told(format!("{name} cannot be read: {error}"))
}

fn is_blank(byte: u8) -> bool {
    matches!(byte, b' ' | b'\t' | b'\n' | b'\r')
}

/// The next bytes of a file that can go back, and that does not move on.
fn look_ahead(file: &mut File) -> io::Result<Vec<u8>> {
    let mut head = vec![0; LOOKED_AT];
    let position = file.stream_position()?;
    let count = file.read_at(&mut head, position)?;
    head.truncate(count);
    Ok(head)
}

/// The next bytes of anything else: as many as come at once, and more only
/// while nothing but blanks has come.
fn read_ahead(file: &mut File) -> io::Result<Vec<u8>> {
    let mut head = Vec::new();
    let mut piece = [0; LOOKED_AT];
    while head.len() < LOOKED_AT && head.iter().all(|&byte| is_blank(byte)) {
        match file.read(&mut piece) {
            Ok(0) => break,
            Ok(count) => head.extend_from_slice(&piece[..count]),
            Err(error) if error.kind() == ErrorKind::Interrupted => {}
            Err(error) => return Err(error),
        }
    }
    Ok(head)
}
