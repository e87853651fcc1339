//! The fields of a record's body, paper 01, "The step log": their sorts, how
//! many bytes each has, and the number that these bytes give.

use crate::names::{Host, Rank};

/// A field of a record's body; a rank with its part in the step.
#[derive(Clone, Copy, Debug, PartialEq, Eq)]
#[allow(missing_docs)]
pub enum Field {
    Rank(&'static str),
    Host,
    Value,
}

impl Field {
    /// "Ranks and hosts are one byte each; the value is four bytes, least
    /// significant first."
    pub const fn length(self) -> usize {
        match self {
            Field::Rank(_) | Field::Host => 1,
            Field::Value => 4,
        }
    }

    /// Reads the number of this field at the start of some bytes, which then
    /// go on behind it; none where they are too few.
    #[inline]
    pub fn read(self, bytes: &mut &[u8]) -> Option<u64> {
        let (read, later) = bytes.split_at_checked(self.length())?;
        *bytes = later;
        let mut number = [0; size_of::<u64>()];
        number[..read.len()].copy_from_slice(read);
        Some(u64::from_le_bytes(number))
    }

    /// Appends the bytes of this field with a number that they hold.
    pub fn write(self, number: u64, bytes: &mut Vec<u8>) {
        bytes.extend_from_slice(&number.to_le_bytes()[..self.length()]);
    }
}

/// What a step holds of a field: a type for each sort, named like it.
pub(crate) trait Held {
    /// What the field holds whose bytes give this number.
    fn of_number(number: u64) -> Self;

    /// The number that the bytes of this field give.
    fn number(self) -> u64;
}

impl Held for Rank {
    fn of_number(number: u64) -> Rank {
        Rank(number as u8)
    }

    fn number(self) -> u64 {
        self.0.into()
    }
}

impl Held for Host {
    fn of_number(number: u64) -> Host {
        Host(number as u8)
    }

    fn number(self) -> u64 {
        self.0.into()
    }
}

/// The value of a message.
pub(crate) type Value = u32;

impl Held for Value {
    fn of_number(number: u64) -> Value {
        number as Value
    }

    fn number(self) -> u64 {
        self.into()
    }
}
