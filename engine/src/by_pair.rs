//! One element for each ordered pair of ranks, found by one index.

use crate::names::Rank;
use std::array;
use std::ops::{Index, IndexMut};

/// Each rank with itself among them.
const PAIRS: usize = Rank::COUNT * Rank::COUNT;

/// An element for each pair, those of a receiver together.
#[derive(Clone, Debug)]
pub(crate) struct ByPair<T>([T; PAIRS]);

impl<T> ByPair<T> {
    /// The same for each pair.
    pub fn all(element: impl Fn() -> T) -> ByPair<T> {
        ByPair(array::from_fn(|_| element()))
    }

    /// The elements of a receiver, one for each sender.
    pub fn of_receiver(&self, receiver: Rank) -> &[T; Rank::COUNT] {
        let (receivers, _) = self.0.as_chunks();
        &receivers[receiver.index()]
    }
}

/// The place of a pair's element.
fn place_of((sender, receiver): (Rank, Rank)) -> usize {
    receiver.index() * Rank::COUNT + sender.index()
}

/// By sender and receiver.
impl<T> Index<(Rank, Rank)> for ByPair<T> {
    type Output = T;

    fn index(&self, pair: (Rank, Rank)) -> &T {
        &self.0[place_of(pair)]
    }
}

impl<T> IndexMut<(Rank, Rank)> for ByPair<T> {
    fn index_mut(&mut self, pair: (Rank, Rank)) -> &mut T {
        &mut self.0[place_of(pair)]
    }
}
