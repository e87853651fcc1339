//! What each refusal of a step means at the rack, and what to do: the one source
//! of a run told in words, and of the table in docs/REFUSALS.md, which also has
//! the numbers that are withdrawn.

use crate::refusal::Refusal;

impl Refusal {
    /// The numbers that no input meets any more, each with the two columns of
    /// its row: paper 02, Change 2, "Number 18 is given no more".
    pub const WITHDRAWN: [(u8, &str, &str); 1] = [(
        18,
        "no longer given, since change 2: a move to the rank's own host is a restart, and is \
            accepted",
        "nothing; a log or a program that still counts on this number is older than change 2",
    )];

    /// What it means at the rack, as the end of a sentence.
    pub fn meaning(self) -> &'static str {
        self.words().0
    }

    /// What to do about it.
    pub fn remedy(self) -> &'static str {
        self.words().1
    }

    /// The two columns of the table, in order of the numbers.
    #[rustfmt::skip]
    fn words(self) -> (&'static str, &'static str) {
        match self {
            Refusal::UnsoundState => (
                "the lent state is unsound: no steps from a fresh desk lead to it",
                "go back to the last sound state; steps from a fresh desk never leave an \
                    unsound one",
            ),
            Refusal::UnknownKind => (
                "a byte that is no record kind",
                "fetch the log again: it is damaged or from another version, and nothing behind \
                    this byte can be trusted",
            ),
            Refusal::CutShort => (
                "the log ends here, or in the middle of the record",
                "fetch the rest of the log; at its very end there is nothing to do",
            ),
            Refusal::RankOutOfRange => (
                "a rank above 15",
                "correct the record: ranks are 0 to 15",
            ),
            Refusal::HostOutOfRange => (
                "a host above 7 in a start or a move",
                "correct the record: hosts are 0 to 7",
            ),
            Refusal::RankNamedTwice => (
                "the same rank twice in one record",
                "name two different ranks",
            ),
            Refusal::RankUnstarted => (
                "a rank that is unstarted",
                "start it first",
            ),
            Refusal::AlreadyStarted => (
                "a start of a rank that was started before",
                "leave the record out: a rank is started once; move it if it should run elsewhere",
            ),
            Refusal::RankEnded => (
                "the first rank has ended",
                "leave the record out: an ended rank takes no more part",
            ),
            Refusal::RankMoving => (
                "the first rank is moving and can't do this meanwhile",
                "let it land, then repeat the step",
            ),
            Refusal::RankNotMoving => (
                "a drain or a landing of a rank that is not moving",
                "nothing where it has landed already; else see why its move was refused, and \
                    repeat it",
            ),
            Refusal::LineStands => (
                "a call where a line stands already; or an end with a line standing",
                "for a call: use the line; for an end: part first, or heed where the line is a \
                    notice",
            ),
            Refusal::CallOpen => (
                "the rank has a call of its own open",
                "route it until it closes",
            ),
            Refusal::NoCall => (
                "a route without an open call to that rank",
                "call first; where calls crossed, the line stands already",
            ),
            Refusal::NoLine => (
                "no line to that rank",
                "call and route first",
            ),
            Refusal::LineIsNotice => (
                "a part of a line that is a notice: the other end is a mover",
                "heed the move instead",
            ),
            Refusal::LineIsNotNotice => (
                "a heed where the line is not a notice",
                "nothing: the other end is not moving, was heeded already, or moves at the same \
                    time, when no heed is needed",
            ),
            Refusal::AwaitStands => (
                "a landing while there is still an await",
                "have the other ranks heed, drain until each end marker has come, then land",
            ),
            Refusal::NoAwait => (
                "a drain of a rank of which there is no await",
                "nothing: that lane is finished; drain the others, then land",
            ),
            Refusal::NothingToDrain => (
                "a drain with nothing on the lane to the mover, not even an end marker",
                "have the other rank heed first",
            ),
            Refusal::NothingUnread => (
                "nothing unread from that sender; for a look, nothing unread at all",
                "take or look again later; while one waits this is no error",
            ),
            Refusal::UnreadRemain => (
                "an end with messages unread",
                "take them first",
            ),
            Refusal::DeskFull => (
                "1,024 messages are unread already, in the whole desk",
                "have the receivers take; the send can then be repeated",
            ),
            Refusal::NumbersExhausted => (
                "all 65,535 numbers of that host are drawn",
                "use another host",
            ),
            Refusal::SendsExhausted => (
                "the pair has sent 4,294,967,295 messages already: its running numbers are used up",
                "begin anew with a fresh desk, or send over another rank; what is unread can \
                    still be taken",
            ),
        }
    }
}
