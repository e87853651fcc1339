//! The two levels of name of paper 01, "Names and places": a rank number, and
//! a vmid, which is a host with a number drawn on it. Each is a type of its
//! own, so that a vmid never indexes as a rank.

/// A rank number as a record or a state gives it; only 0 to 15 name a rank.
#[derive(Clone, Copy, Debug, PartialEq, Eq, PartialOrd, Ord)]
pub struct Rank(pub u8);

impl Rank {
    /// "Ranks are 0 to 15."
    pub const COUNT: usize = 16;

    /// Whether this names a rank.
    pub fn in_range(self) -> bool {
        usize::from(self.0) < Self::COUNT
    }

    /// The place of this rank in an array with one element for each rank.
    pub fn index(self) -> usize {
        usize::from(self.0)
    }

    /// All sixteen ranks, ascending.
    pub fn all() -> impl Iterator<Item = Rank> {
        (0..Self::COUNT as u8).map(Rank)
    }
}

/// A host as a record or a state gives it; only 0 to 7 are hosts.
#[derive(Clone, Copy, Debug, PartialEq, Eq)]
pub struct Host(pub u8);

impl Host {
    /// "A vmid is a host, 0 to 7, and a number drawn on it."
    pub const COUNT: usize = 8;

    /// Whether this is a host.
    pub fn in_range(self) -> bool {
        usize::from(self.0) < Self::COUNT
    }

    /// The place of this host in an array with one element for each host.
    pub fn index(self) -> usize {
        usize::from(self.0)
    }
}

/// The name of a process: a host, and a number drawn on it.
#[derive(Clone, Copy, Debug, PartialEq, Eq)]
pub struct Vmid(pub Host, pub u16);

impl Vmid {
    /// "0.0 (host 0, number 0: unknown)".
    pub const UNKNOWN: Vmid = Vmid(Host(0), 0);

    /// Numbers on a host are "1, 2, 3 up to 65,535".
    pub const LAST_NUMBER: u16 = 65_535;

    /// The host it was drawn on.
    pub fn host(self) -> Host {
        self.0
    }

    /// Its number on that host.
    pub fn number(self) -> u16 {
        self.1
    }
}
