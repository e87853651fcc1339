//! The records of paper 01, "The step log": "One byte of kind, then a body
//! whose length the kind fixes." All that is known of a kind's record stands in
//! one row of a table. A record is read into a step whose ranks and hosts are
//! still unchecked bytes.

use crate::field::{Field, Held, Value};
use crate::names::{Host, Rank};
use crate::refusal::Refusal;

/// Makes the kinds and their steps of the table of records. A row has the
/// kind's byte, its name, the paper's word for it, and the fields of its body in
/// order, each with the paper's letter.
macro_rules! records {
    ($(
        $byte:literal $kind:ident $word:literal
        { $($letter:ident: $sort:ident $(($part:literal))?),+ }
    )+) => {
        /// A known kind; its discriminant is the paper's byte.
        #[derive(Clone, Copy, Debug, PartialEq, Eq, PartialOrd, Ord)]
        #[repr(u8)]
        #[allow(missing_docs)]
        pub enum Kind {
            $($kind = $byte,)+
        }

        impl Kind {
            /// All kinds, ascending by byte from 01 on, without a gap.
            pub const ALL: [Kind; [$($byte),+].len()] = [$(Kind::$kind),+];

            /// The word for a record of this kind.
            pub const fn word(self) -> &'static str {
                match self {
                    $(Kind::$kind => $word,)+
                }
            }

            /// The fields of the body, in order.
            pub const fn body(self) -> &'static [Field] {
                match self {
                    $(Kind::$kind => &[$(Field::$sort $(($part))?),+],)+
                }
            }
        }

        /// A step as its record gives it, with the paper's letters as field
        /// names.
        #[derive(Clone, Copy, Debug, PartialEq, Eq)]
        #[allow(missing_docs)]
        pub enum Step {
            $($kind { $($letter: $sort),+ },)+
        }

        impl Step {
            /// The kind of its record.
            pub const fn kind(self) -> Kind {
                match self {
                    $(Step::$kind { .. } => Kind::$kind,)+
                }
            }

            /// The step of a kind, with a number for each field of its body in
            /// order; none where one of them is missing.
            #[inline]
            pub fn from_fields(
                kind: Kind,
                mut number: impl FnMut(Field) -> Option<u64>,
            ) -> Option<Step> {
                Some(match kind {
                    $(Kind::$kind => Step::$kind {
                        $($letter: $sort::of_number(number(Field::$sort $(($part))?)?)),+
                    },)+
                })
            }

            /// The numbers of its fields, and zeros behind them.
            fn numbers(self) -> Numbers {
                match self {
                    $(Step::$kind { $($letter),+ } => padded([$($letter.number()),+]),)+
                }
            }
        }
    };
}

// The paper's list, "01 start r h" and so on, with each rank's part in its step.
records! {
    0x01 Start "start" { r: Rank("rank"), h: Host }
    0x02 Call "call" { a: Rank("calling rank"), b: Rank("called rank") }
    0x03 Route "route" { a: Rank("calling rank"), b: Rank("called rank") }
    0x04 Send "send" { a: Rank("sender"), b: Rank("receiver"), value: Value }
    0x05 Take "take" { b: Rank("receiver"), a: Rank("sender") }
    0x06 Move "move" { r: Rank("rank"), h: Host }
    0x07 Heed "heed" { b: Rank("heeding rank"), r: Rank("moving rank") }
    0x08 Drain "drain" { r: Rank("moving rank"), s: Rank("sender") }
    0x09 Land "land" { r: Rank("moving rank") }
    0x0A Part "part" { a: Rank("rank"), b: Rank("other rank") }
    0x0B End "end" { r: Rank("rank") }
    0x0C Look "look" { r: Rank("rank") }
}

impl Kind {
    /// The length of the longest record.
    pub const LONGEST_RECORD: usize = {
        let mut longest = 0;
        let mut rest: &[usize] = &RECORD_LENGTHS;
        while let [length, later @ ..] = rest {
            if *length > longest {
                longest = *length;
            }
            rest = later;
        }
        longest
    };

    /// The kind of a byte; none where it is no kind.
    pub fn from_byte(byte: u8) -> Option<Kind> {
        Kind::ALL.get(usize::from(byte).wrapping_sub(1)).copied()
    }

    /// The place of this kind in `Kind::ALL`.
    pub const fn index(self) -> usize {
        self as usize - 1
    }

    /// How many bytes a record of this kind has.
    pub const fn record_length(self) -> usize {
        RECORD_LENGTHS[self.index()]
    }
}

/// The length of each kind's record, in the order of `Kind::ALL`: added up
/// once, not for every record that is read.
const RECORD_LENGTHS: [usize; Kind::ALL.len()] = {
    let mut lengths = [1; Kind::ALL.len()];
    let mut index = 0;
    while index < lengths.len() {
        let mut rest = Kind::ALL[index].body();
        while let [field, later @ ..] = rest {
            lengths[index] += field.length();
            rest = later;
        }
        index += 1;
    }
    lengths
};

/// A number for each field of a body, none of which has more fields than bytes.
type Numbers = [u64; Kind::LONGEST_RECORD];

fn padded<const COUNT: usize>(fields: [u64; COUNT]) -> Numbers {
    let mut numbers = [0; Kind::LONGEST_RECORD];
    numbers[..COUNT].copy_from_slice(&fields);
    numbers
}

impl Step {
    /// The fields of its body in order, each with its number.
    pub fn fields(self) -> impl Iterator<Item = (Field, u64)> {
        self.kind().body().iter().copied().zip(self.numbers())
    }

    /// The ranks that it names, in order.
    pub fn ranks(self) -> impl Iterator<Item = Rank> {
        let fields = self.fields();
        let ranks = fields.filter(|(field, _)| matches!(field, Field::Rank(_)));
        ranks.map(|(_, number)| Rank::of_number(number))
    }

    /// Reads the record at the start of `rest`, the log from some position on,
    /// and gives its step and its length. Refusal 2 comes before 3 where there
    /// is a byte to be a kind; where there is none, "no kind is read".
    #[inline]
    pub fn read(rest: &[u8]) -> Result<(Step, usize), Refusal> {
        let (&byte, mut body) = rest.split_first().ok_or(Refusal::CutShort)?;
        let kind = Kind::from_byte(byte).ok_or(Refusal::UnknownKind)?;
        let step = Step::from_fields(kind, |field| field.read(&mut body));
        let step = step.ok_or(Refusal::CutShort)?;
        Ok((step, kind.record_length()))
    }

    /// Appends the record of this step to a log.
    pub fn write(self, log: &mut Vec<u8>) {
        log.push(self.kind() as u8);
        for (field, number) in self.fields() {
            field.write(number, log);
        }
    }
}
