//! What a step answers: three values, or the refusal of one check. The cases
//! and their numbers are the table of paper 01, "Where each step is checked",
//! without 18 (paper 02, Change 2, "Number 18 is given no more"), and the checks
//! of a step that paper 02 adds.

use crate::mail::PairCount;

/// v1, v2, v3: "the answer's values; an unnamed one is 0".
pub type Values = [u32; 3];

/// The answer of a step: its values when accepted, else its refusal.
pub type Answer = Result<Values, Refusal>;

/// The check that refused a step; its discriminant is the paper's number.
#[derive(Clone, Copy, Debug, PartialEq, Eq, PartialOrd, Ord)]
#[repr(u8)]
pub enum Refusal {
    /// The lent state is unsound.
    UnsoundState = 1,
    /// Kind is not 01 to 0C.
    UnknownKind = 2,
    /// Position at or past the log's end, or body cut short.
    CutShort = 3,
    /// A rank above 15.
    RankOutOfRange = 4,
    /// Start, move: host above 7.
    HostOutOfRange = 5,
    /// One rank named twice.
    RankNamedTwice = 6,
    /// A named rank is unstarted.
    RankUnstarted = 7,
    /// Start: rank not unstarted.
    AlreadyStarted = 8,
    /// First rank ended.
    RankEnded = 9,
    /// First rank moving.
    RankMoving = 10,
    /// Drain, land: rank not moving.
    RankNotMoving = 11,
    /// Call: a line to b stands; end: any line stands.
    LineStands = 12,
    /// Call, move, end: a call of its own is open.
    CallOpen = 13,
    /// Route: a has no call open to b.
    NoCall = 14,
    /// Send, part: no line to b.
    NoLine = 15,
    /// Part: line is notice.
    LineIsNotice = 16,
    /// Heed: line is not notice.
    LineIsNotNotice = 17,
    /// Land: an await is not none.
    AwaitStands = 19,
    /// Drain: await of s is none.
    NoAwait = 20,
    /// Drain: no message at place 1 and await unheeded.
    NothingToDrain = 21,
    /// Take: pair has none unread; look: r has none.
    NothingUnread = 22,
    /// End: r has unread messages.
    UnreadRemain = 23,
    /// Send: 1,024 already unread.
    DeskFull = 24,
    /// Start, move: 65,535 numbers drawn on h.
    NumbersExhausted = 25,
    /// Send: the pair has already sent 4,294,967,295 (paper 02, Change 4).
    SendsExhausted = 28,
}

impl Refusal {
    /// All refusals, ascending by number.
    pub const ALL: [Refusal; 25] = [
        Refusal::UnsoundState,
        Refusal::UnknownKind,
        Refusal::CutShort,
        Refusal::RankOutOfRange,
        Refusal::HostOutOfRange,
        Refusal::RankNamedTwice,
        Refusal::RankUnstarted,
        Refusal::AlreadyStarted,
        Refusal::RankEnded,
        Refusal::RankMoving,
        Refusal::RankNotMoving,
        Refusal::LineStands,
        Refusal::CallOpen,
        Refusal::NoCall,
        Refusal::NoLine,
        Refusal::LineIsNotice,
        Refusal::LineIsNotNotice,
        Refusal::AwaitStands,
        Refusal::NoAwait,
        Refusal::NothingToDrain,
        Refusal::NothingUnread,
        Refusal::UnreadRemain,
        Refusal::DeskFull,
        Refusal::NumbersExhausted,
        Refusal::SendsExhausted,
    ];

    /// The refusal with this number; none where no answer has it.
    pub fn from_number(number: u8) -> Option<Refusal> {
        Refusal::ALL
            .into_iter()
            .find(|refusal| refusal.number() == number)
    }

    /// The paper's number for this refusal.
    pub fn number(self) -> u8 {
        self as u8
    }

    /// "The position passes the record, except at 1, 2 and 3, where it stays."
    pub fn keeps_position(self) -> bool {
        self <= Refusal::CutShort
    }
}

/// The number that a printed run shows: "0 when accepted".
pub fn number_of(answer: &Answer) -> u8 {
    answer.map_or_else(Refusal::number, |_| 0)
}

/// The values that a printed run shows: zero on a refusal.
pub fn values_of(answer: &Answer) -> Values {
    answer.unwrap_or([0; 3])
}

/// A pair's count as an answer and a printed run have it. The lower part hands
/// it out in 16 bits, and it is widened here alone.
pub fn count_value(count: PairCount) -> u32 {
    u32::from(count)
}
