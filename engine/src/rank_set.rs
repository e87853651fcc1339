//! A set of ranks in sixteen bits: how the desk keeps, for each rank, the
//! others to which it has a line or an await of one sort, or a message unread
//! (paper 01, "For each rank and each other rank the state holds").

use crate::names::Rank;

/// A set of ranks in range.
#[derive(Clone, Copy, Debug, Default, PartialEq, Eq)]
pub struct RankSet(u16);

impl RankSet {
    /// The set without members.
    pub const EMPTY: RankSet = RankSet(0);

    /// Whether `rank` is a member.
    pub fn contains(self, rank: Rank) -> bool {
        self.0 >> rank.0 & 1 == 1
    }

    /// Makes `rank` a member.
    pub fn insert(&mut self, rank: Rank) {
        self.0 |= 1 << rank.0;
    }

    /// Makes `rank` no member.
    pub fn remove(&mut self, rank: Rank) {
        *self = self.without(rank);
    }

    /// All members but `rank`.
    pub fn without(self, rank: Rank) -> RankSet {
        RankSet(self.0 & !(1 << rank.0))
    }

    /// Whether there are no members.
    pub fn is_empty(self) -> bool {
        self.0 == 0
    }

    /// How many members there are.
    pub fn len(self) -> u32 {
        self.0.count_ones()
    }

    fn lowest(self) -> Option<Rank> {
        (self.0 != 0).then(|| Rank(self.0.trailing_zeros() as u8))
    }
}

impl IntoIterator for RankSet {
    type Item = Rank;
    type IntoIter = Members;

    fn into_iter(self) -> Members {
        Members(self)
    }
}

/// The members of a set, ascending.
#[derive(Clone, Debug)]
pub struct Members(RankSet);

impl Iterator for Members {
    type Item = Rank;

    fn next(&mut self) -> Option<Rank> {
        let rank = self.0.lowest()?;
        self.0.remove(rank);
        Some(rank)
    }
}
