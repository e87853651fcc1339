//! The lines of paper 01, "The printed run". A line is made from its end to
//! its start, the way in which digits come off a number, and then appended to
//! the text at once.

use crate::desk::Desk;
use crate::names::Rank;
use crate::refusal::{count_value, number_of, values_of, Answer};

/// No line is longer: twenty digits of a position, two each of the kind and
/// the number, three values of ten digits, and six separators.
pub(crate) const LONGEST_LINE: usize = 20 + 2 + 2 + 3 * 10 + 6;

const HEXADECIMAL: &[u8; 16] = b"0123456789ABCDEF";

/// The two decimal digits of each number below 100.
const PAIRS: [[u8; 2]; 100] = {
    let mut pairs = [[0; 2]; 100];
    let mut number = 0;
    while number < 100 {
        pairs[number] = [b'0' + number as u8 / 10, b'0' + number as u8 % 10];
        number += 1;
    }
    pairs
};

/// The end of a line: the bytes from `start` on.
struct Line {
    bytes: [u8; LONGEST_LINE],
    start: usize,
}

impl Line {
    /// A line of which only the newline is there.
    fn ended() -> Line {
        let mut line = Line {
            bytes: [0; LONGEST_LINE],
            start: LONGEST_LINE,
        };
        line.put([b'\n']);
        line
    }

    /// Puts bytes before what is there.
    fn put<const LENGTH: usize>(&mut self, bytes: [u8; LENGTH]) {
        self.start -= LENGTH;
        self.bytes[self.start..self.start + LENGTH].copy_from_slice(&bytes);
    }

    fn put_decimal(&mut self, mut number: u64) {
        while number >= 100 {
            self.put(PAIRS[(number % 100) as usize]);
            number /= 100;
        }
        if number >= 10 {
            self.put(PAIRS[number as usize]);
        } else {
            self.put([b'0' + number as u8]);
        }
    }

    /// A space and a number, which mostly has one digit.
    #[inline]
    fn put_field(&mut self, number: u32) {
        if number < 10 {
            self.put([b' ', b'0' + number as u8]);
        } else {
            self.put_decimal(u64::from(number));
            self.put([b' ']);
        }
    }

    fn append_to(&self, text: &mut Vec<u8>) {
        text.extend_from_slice(&self.bytes[self.start..]);
    }
}

/// Position, kind, number, v1, v2, v3.
pub(crate) fn print_record(text: &mut Vec<u8>, position: u64, kind: u8, answer: &Answer) {
    let mut line = Line::ended();
    for value in values_of(answer).into_iter().rev() {
        line.put_field(value);
    }
    line.put_field(u32::from(number_of(answer)));
    let [high, low] = [kind >> 4, kind & 15].map(|digit| HEXADECIMAL[usize::from(digit)]);
    line.put([b' ', high, low]);
    line.put_decimal(position);
    line.append_to(text);
}

/// "For each ordered pair with unread messages, ascending by sender and
/// receiver: `pair`, sender, receiver, counts at places 0 to 3. Then `end`."
pub(crate) fn print_unread(text: &mut Vec<u8>, desk: &Desk) {
    for sender in Rank::all() {
        for receiver in Rank::all() {
            if desk.mail().unread_between(sender, receiver) > 0 {
                print_pair(text, desk, sender, receiver);
            }
        }
    }
    text.extend_from_slice(b"end\n");
}

fn print_pair(text: &mut Vec<u8>, desk: &Desk, sender: Rank, receiver: Rank) {
    let mut line = Line::ended();
    for count in desk.mail().counts(sender, receiver).into_iter().rev() {
        line.put_field(count_value(count));
    }
    line.put_field(u32::from(receiver.0));
    line.put_field(u32::from(sender.0));
    line.put(*b"pair");
    line.append_to(text);
}
