//! Paper 02, Change 1, "A made-up pass from one number": the log of n records
//! that a seed stands for. Panel makers exchange it as that number, so it stays
//! the same log at every later landing, whatever kinds come after 0C.

use crate::field::Field;
use crate::names::{Host, Rank};
use crate::record::Kind;
use std::fmt;
use std::io::{self, Write};

/// "One draw gives the kind, 1 plus the draw modulo 12": kinds that come later
/// are not drawn.
const KINDS: usize = 12;

const RANKS: u32 = Rank::COUNT as u32;
const HOSTS: u32 = Host::COUNT as u32;

/// The bytes of the longest record that is drawn, a send: "7 times n bytes" are
/// asked for n records.
pub const LONGEST_RECORD: usize = 7;

/// A pass is handed to an output in pieces of up to this size.
const PIECE_BYTES: usize = 65_536;

/// The check that kept a log from being made; its discriminant is the paper's
/// number.
#[derive(Clone, Copy, Debug, PartialEq, Eq)]
#[repr(u8)]
pub enum NotMade {
    /// "26 for seed zero."
    SeedZero = 26,
    /// "27 for a buffer shorter than 7 times n bytes."
    BufferShort = 27,
}

impl NotMade {
    /// The paper's number for this check.
    pub fn number(self) -> u8 {
        self as u8
    }
}

impl fmt::Display for NotMade {
    fn fmt(&self, formatter: &mut fmt::Formatter<'_>) -> fmt::Result {
        let reason = match self {
            NotMade::SeedZero => "the seed is zero",
            NotMade::BufferShort => "the buffer is shorter than 7 times the count",
        };
        write!(formatter, "refused with {}: {reason}", self.number())
    }
}

impl std::error::Error for NotMade {}

/// Writes the log of so many records from a seed to the start of a buffer. "The
/// answer is the bytes written; the buffer beyond them is untouched." Checked
/// are 26 and then 27; "neither writes a byte".
pub fn made_up(seed: u32, records: u64, buffer: &mut [u8]) -> Result<usize, NotMade> {
    MadeUp::new(seed)?.write_records(records, buffer)
}

/// A pass that is being made up, from its first record on or in its midst: the
/// word of "the 32-bit xorshift generator of Marsaglia", which is never zero.
#[derive(Clone, Debug)]
pub struct MadeUp {
    word: u32,
}

impl MadeUp {
    /// The pass of a seed, before its first record.
    pub fn new(seed: u32) -> Result<MadeUp, NotMade> {
        match seed {
            0 => Err(NotMade::SeedZero),
            word => Ok(MadeUp { word }),
        }
    }

    /// "Each draw steps the generator and uses the new word", with "shifts 13
    /// left, 17 right, 5 left; bits that leave the top are dropped".
    #[inline]
    pub fn draw(&mut self) -> u32 {
        self.word ^= self.word << 13;
        self.word ^= self.word >> 17;
        self.word ^= self.word << 5;
        self.word
    }

    /// Writes the next so many records to the start of a buffer, and gives their
    /// length. A buffer that is refused is left alone, and so is the pass.
    pub fn write_records(&mut self, records: u64, buffer: &mut [u8]) -> Result<usize, NotMade> {
        // Wider than any count or length, so that no product wraps round.
        if u128::from(records) * LONGEST_RECORD as u128 > buffer.len() as u128 {
            return Err(NotMade::BufferShort);
        }
        let mut end = 0;
        for _ in 0..records {
            let room = buffer[end..].first_chunk_mut();
            end += self.write_record(room.expect("the buffer has room for every record"));
        }
        Ok(end)
    }

    /// Writes the next so many records to an output, in pieces.
    pub fn write_to(&mut self, records: u64, mut output: impl Write) -> io::Result<()> {
        let mut piece = vec![0; PIECE_BYTES];
        let mut left = records;
        while left > 0 {
            let next = left.min((PIECE_BYTES / LONGEST_RECORD) as u64);
            let length = self.write_records(next, &mut piece);
            output.write_all(&piece[..length.expect("a piece has room for its records")])?;
            left -= next;
        }
        Ok(())
    }

    /// Writes the next record, and gives its length. "One further draw gives
    /// each body byte in order, modulo 16 for a rank and 8 for a host; a send's
    /// value is one whole draw."
    fn write_record(&mut self, room: &mut [u8; LONGEST_RECORD]) -> usize {
        let form = FORMS[self.draw() as usize % KINDS];
        room[0] = form.kind as u8;
        room[1] = (self.draw() % RANKS) as u8;
        if form.length > 2 {
            room[2] = (self.draw() % form.second_below) as u8;
        }
        if form.length > 3 {
            room[3..].copy_from_slice(&self.draw().to_le_bytes());
        }
        form.length
    }
}

/// What the record of a kind is made of: its body is a rank, then it may be a
/// rank or a host, and then a value.
#[derive(Clone, Copy)]
struct Form {
    kind: Kind,
    second_below: u32,
    length: usize,
}

impl Form {
    const fn of(kind: Kind) -> Form {
        use Field::{Host, Rank, Value};
        let second_below = match kind.body() {
            [Rank(_)] | [Rank(_), Rank(_)] | [Rank(_), Rank(_), Value] => RANKS,
            [Rank(_), Host] => HOSTS,
            _ => panic!("no kind from 01 to 0C has another body"),
        };
        Form {
            kind,
            second_below,
            length: kind.record_length(),
        }
    }
}

/// The forms of the kinds that are drawn.
const FORMS: [Form; KINDS] = {
    let mut forms = [Form::of(Kind::Start); KINDS];
    let mut index = 0;
    while index < KINDS {
        forms[index] = Form::of(Kind::ALL[index]);
        index += 1;
    }
    forms
};
