//! Logs as text, one record a line in the words of paper 01: `send 0 1 500`.
//! Blank lines and comments from `#` on are passed over. Numbers are decimal,
//! or hexadecimal after `0x`; they may be out of a desk's range, so that
//! refused records can be written too. A line `bytes 4 0 1 ff` gives bytes as
//! they are, in hexadecimal, so that every log has a text.

use crate::field::Field;
use crate::record::{Kind, Step};
use std::fmt::{self, Write};

/// The word of a line that gives bytes as they are.
const BYTES: &str = "bytes";

/// What some editors put before a text.
const BYTE_ORDER_MARK: char = '\u{FEFF}';

/// How many characters of a wrong word are shown.
const LONGEST_SHOWN: usize = 80;

impl Kind {
    /// The kind with this word.
    pub fn from_word(word: &str) -> Option<Kind> {
        Kind::ALL.into_iter().find(|kind| kind.word() == word)
    }
}

impl Field {
    /// What the field is in its step.
    fn part(self) -> &'static str {
        match self {
            Field::Rank(part) => part,
            other => other.sort(),
        }
    }

    /// What sort of number it is.
    fn sort(self) -> &'static str {
        match self {
            Field::Rank(_) => "rank",
            Field::Host => "host",
            Field::Value => "value",
        }
    }

    /// The highest number that its bytes hold.
    fn highest(self) -> u64 {
        u64::MAX >> (u64::BITS - 8 * self.length() as u32)
    }

    /// Appends the number that a word gives for this field.
    fn append(self, word: &str, log: &mut Vec<u8>) -> Result<(), String> {
        let highest = self.highest();
        let number = read_number(word).filter(|&number| number <= highest);
        let number = number.ok_or_else(|| {
            let (sort, word) = (self.sort(), shown(word));
            format!("{sort} '{word}' is not a number from 0 to {highest}")
        })?;
        self.write(number, log);
        Ok(())
    }
}

/// A line that is no record, and what was expected of it.
#[derive(Clone, Debug, PartialEq, Eq)]
pub struct TextError {
    /// The line, counted from 1.
    pub line: usize,
    /// What is wrong with it.
    pub problem: String,
}

impl fmt::Display for TextError {
    fn fmt(&self, formatter: &mut fmt::Formatter<'_>) -> fmt::Result {
        write!(formatter, "line {}: {}", self.line, self.problem)
    }
}

impl std::error::Error for TextError {}

/// How many wrong lines are told at once; what follows them is not read.
pub const MOST_ERRORS: usize = 10;

/// The log of a text, or its first lines that are none of the allowed ones. A
/// byte-order mark before the first line is passed over.
pub fn encode(text: &str) -> Result<Vec<u8>, Vec<TextError>> {
    let text = text.strip_prefix(BYTE_ORDER_MARK).unwrap_or(text);
    let mut log = Vec::new();
    let wrong = text.lines().enumerate().filter_map(|(index, line)| {
        let problem = append_line(line, &mut log).err()?;
        Some(TextError {
            line: index + 1,
            problem,
        })
    });
    let errors: Vec<TextError> = wrong.take(MOST_ERRORS).collect();
    if errors.is_empty() {
        Ok(log)
    } else {
        Err(errors)
    }
}

/// Wrong lines as they are told, one a line, with some words before each.
pub fn told(errors: &[TextError], before: &str) -> String {
    let lines = errors.iter().map(|error| format!("{before}{error}"));
    lines.collect::<Vec<_>>().join("\n")
}

/// A word as it is shown in an error: what can't be seen is written out, and a
/// long word is cut.
fn shown(word: &str) -> String {
    let mut visible = word.escape_debug();
    let mut start: String = visible.by_ref().take(LONGEST_SHOWN).collect();
    if visible.next().is_some() {
        start.push_str("..");
    }
    start
}

fn append_line(line: &str, log: &mut Vec<u8>) -> Result<(), String> {
    let content = line.split_once('#').map_or(line, |(content, _)| content);
    let mut words = content.split_whitespace();
    let Some(first) = words.next() else {
        return Ok(());
    };
    let words: Vec<&str> = words.collect();
    if first == BYTES {
        return append_bytes(&words, log);
    }
    let kind = Kind::from_word(first).ok_or_else(|| unknown_word(first))?;
    append_record(kind, &words, log)
}

fn append_record(kind: Kind, words: &[&str], log: &mut Vec<u8>) -> Result<(), String> {
    let fields = kind.body();
    if words.len() < fields.len() {
        return Err(needs(kind));
    }
    if let Some(extra) = words.get(fields.len()) {
        let extra = shown(extra);
        return Err(format!("'{extra}' is too much; {}", needs(kind)));
    }
    log.push(kind as u8);
    let mut pairs = fields.iter().zip(words);
    pairs.try_for_each(|(field, word)| field.append(word, log))
}

fn append_bytes(words: &[&str], log: &mut Vec<u8>) -> Result<(), String> {
    if words.is_empty() {
        return Err(format!("{BYTES} needs at least one byte"));
    }
    for word in words {
        let digits = word.strip_prefix("0x").unwrap_or(word);
        let byte = read_digits(digits, 16).and_then(|number| u8::try_from(number).ok());
        log.push(byte.ok_or_else(|| {
            let word = shown(word);
            format!("byte '{word}' is not a hexadecimal number from 0 to ff")
        })?);
    }
    Ok(())
}

fn unknown_word(word: &str) -> String {
    let known = Kind::ALL.map(Kind::word).join(", ");
    let word = shown(word);
    format!("'{word}' is no record kind; one of {known}, {BYTES}")
}

/// "send needs sender, receiver and value".
fn needs(kind: Kind) -> String {
    let parts: Vec<&str> = kind.body().iter().map(|field| field.part()).collect();
    let list = match parts.split_last() {
        Some((last, rest)) if !rest.is_empty() => format!("{} and {last}", rest.join(", ")),
        _ => parts.concat(),
    };
    format!("{} needs {list}", kind.word())
}

fn read_number(word: &str) -> Option<u64> {
    match word.strip_prefix("0x") {
        Some(digits) => read_digits(digits, 16),
        None => read_digits(word, 10),
    }
}

/// The number of some digits, without a sign.
fn read_digits(digits: &str, radix: u32) -> Option<u64> {
    let plain = digits.chars().all(|digit| digit.is_digit(radix));
    plain.then(|| u64::from_str_radix(digits, radix).ok())?
}

/// The text of a log. What is no whole record of a known kind, and all after
/// it, is one line of bytes.
pub fn decode(log: &[u8]) -> String {
    let mut text = String::new();
    let mut rest = log;
    while let Ok((step, length)) = Step::read(rest) {
        writeln!(text, "{step}").expect("a string takes all text");
        rest = &rest[length..];
    }
    if !rest.is_empty() {
        push_bytes(&mut text, rest);
    }
    text
}

/// A record as its line of text has it.
impl fmt::Display for Step {
    fn fmt(&self, formatter: &mut fmt::Formatter<'_>) -> fmt::Result {
        formatter.write_str(self.kind().word())?;
        let mut fields = self.fields();
        fields.try_for_each(|(_, number)| write!(formatter, " {number}"))
    }
}

fn push_bytes(text: &mut String, bytes: &[u8]) {
    text.push_str(BYTES);
    for byte in bytes {
        write!(text, " {byte:x}").expect("a string takes all text");
    }
    text.push('\n');
}
