//! What happened to the ranks earlier in a log: who has parted from whom, who
//! has restarted, and who has just landed.

use super::restarts::is_restart;
use engine::rank_set::RankSet;
use engine::{Desk, Rank, Step};

/// All of it up to the step that is being made.
#[derive(Clone, Debug, Default)]
pub struct Past {
    /// For each rank, those that it has parted from.
    parted: [RankSet; Rank::COUNT],
    restarted: RankSet,
    /// The ranks that have done nothing but look since they landed.
    landed: RankSet,
}

impl Past {
    /// Looks at a step that is accepted, before it is made.
    pub fn note(&mut self, desk: &Desk, step: Step) {
        if let (Some(first), false) = (step.ranks().next(), matches!(step, Step::Look { .. })) {
            self.landed.remove(first);
        }
        match step {
            Step::Start { r, .. } => self.forget(r),
            Step::Move { r, h } if is_restart(desk, r, h) => self.restarted.insert(r),
            Step::Land { r } => self.landed.insert(r),
            Step::Part { a, b } => {
                self.parted[a.index()].insert(b);
                self.parted[b.index()].insert(a);
            }
            _ => {}
        }
    }

    /// A rank is started once in a log: nothing is known of it from another.
    fn forget(&mut self, rank: Rank) {
        self.restarted.remove(rank);
        self.parted[rank.index()] = RankSet::EMPTY;
        self.parted
            .iter_mut()
            .for_each(|others| others.remove(rank));
    }

    /// Whether two ranks have parted.
    pub fn have_parted(&self, a: Rank, b: Rank) -> bool {
        self.parted[a.index()].contains(b)
    }

    /// Whether one of two ranks has restarted.
    pub fn has_restarted(&self, a: Rank, b: Rank) -> bool {
        self.restarted.contains(a) || self.restarted.contains(b)
    }

    /// Whether a rank has done nothing but look since it landed.
    pub fn has_just_landed(&self, rank: Rank) -> bool {
        self.landed.contains(rank)
    }
}

/// How many ranks move.
pub fn moving(desk: &Desk) -> usize {
    let moving = Rank::all().filter(|&rank| desk.standing(rank).is_moving());
    moving.count()
}
