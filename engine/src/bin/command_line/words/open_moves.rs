//! The moves that are open: "A move is open from its accepted 06 until its
//! accepted 09" (paper 01, "Lists of steps"); and where each rank is.

use engine::rank_set::RankSet;
use engine::{Rank, Step, Values};

/// The open move of each rank that has one, and the host of its current end.
#[derive(Default)]
pub struct OpenMoves {
    moves: [Option<OpenMove>; Rank::COUNT],
    hosts: [Option<u32>; Rank::COUNT],
}

/// An open move.
#[derive(Clone, Copy, Debug, PartialEq)]
pub struct OpenMove {
    pub host: u32,
    pub number: u32,
    /// The ranks that were routed to or from the arrival. A line to the moving
    /// rank that is older is a notice.
    joined: RankSet,
}

/// Which process of a rank a message goes to.
#[derive(Debug, PartialEq)]
pub enum End {
    Running,
    Mover,
    Arrival,
}

impl OpenMoves {
    /// Follows an accepted step.
    pub fn follow(&mut self, step: Step, values: Values) {
        match (step, values) {
            (Step::Start { r, .. }, [host, ..]) => self.hosts[r.index()] = Some(host),
            (Step::Move { r, .. }, [host, number, _]) => {
                self.hosts[r.index()] = Some(host);
                self.moves[r.index()] = Some(OpenMove {
                    host,
                    number,
                    joined: RankSet::EMPTY,
                });
            }
            (Step::Land { r }, _) => self.moves[r.index()] = None,
            (Step::Route { a, b }, [0, ..]) => {
                self.join(a, b);
                self.join(b, a);
            }
            _ => {}
        }
    }

    fn join(&mut self, moving: Rank, other: Rank) {
        if let Some(open) = &mut self.moves[moving.index()] {
            open.joined.insert(other);
        }
    }

    /// Whether a host is "the rank's present host" (paper 02, Change 2).
    pub fn is_present_host(&self, rank: Rank, host: u32) -> bool {
        self.hosts[rank.index()] == Some(host)
    }

    /// Where an accepted send goes.
    pub fn end_reached(&self, sender: Rank, receiver: Rank) -> End {
        match self.moves[receiver.index()] {
            None => End::Running,
            Some(open) if open.joined.contains(sender) => End::Arrival,
            Some(_) => End::Mover,
        }
    }

    /// The ranks with open moves, ascending.
    pub fn all(&self) -> impl Iterator<Item = (Rank, OpenMove)> + '_ {
        Rank::all().filter_map(|rank| self.moves[rank.index()].map(|open| (rank, open)))
    }
}

#[cfg(test)]
mod tests {
    use super::{End, OpenMoves};
    use engine::proposals::{random_log, Mix};
    use engine::{Desk, Line, Step, Vmid};

    /// Along random runs it tells from starts, moves, landings and routes alone
    /// what the desk tells from its lines and standings.
    #[test]
    fn sends_and_moves_are_told_as_the_desk_has_them() {
        let log = random_log(5, Mix::BROAD, 100_000);
        let (mut desk, mut moves) = (Desk::fresh(), OpenMoves::default());
        let mut seen = [0; 3];
        let mut restarts = [0; 2];
        let mut rest = &log[..];
        while let Ok((step, length)) = Step::read(rest) {
            if let (Step::Send { a, b, .. }, Ok(())) = (step, desk.check(step)) {
                let expected = match (desk.standing(b).is_moving(), desk.line(a, b)) {
                    (false, _) => End::Running,
                    (true, Line::Notice) => End::Mover,
                    (true, _) => End::Arrival,
                };
                assert_eq!(moves.end_reached(a, b), expected);
                seen[expected as usize] += 1;
            }
            if let (Step::Move { r, h }, Ok(())) = (step, desk.check(step)) {
                let present = desk.standing(r).current_end().map(Vmid::host) == Some(h);
                assert_eq!(moves.is_present_host(r, u32::from(h.0)), present);
                restarts[usize::from(present)] += 1;
            }
            if let Ok(values) = desk.step_sound(rest, 0).answer {
                moves.follow(step, values);
            }
            rest = &rest[length..];
        }
        assert!(seen.iter().all(|&count| count > 100), "{seen:?}");
        assert!(restarts.iter().all(|&count| count > 100), "{restarts:?}");
    }
}
