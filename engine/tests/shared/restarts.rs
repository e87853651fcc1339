//! How often a run came into the situations of paper 02, Change 2: a rank moves
//! to its present host, beside other moves and with messages to carry.

use engine::{Desk, Host, Line, Mail, PairCount, Rank, Standing, Step};

/// The counts, each of accepted moves to the rank's present host.
#[derive(Clone, Debug, Default)]
pub struct Restarts {
    all: u64,
    beside_a_move: u64,
    beside_a_move_there: u64,
    both_joined: u64,
    leaving_list_and_lane: u64,
    carrying_again: u64,
    /// For each receiver and sender, how many messages were unread at the
    /// receiver's last restart and still are.
    carried: [[PairCount; Rank::COUNT]; Rank::COUNT],
}

impl Restarts {
    /// How many rows there are.
    pub const ROWS: usize = 6;

    /// Looks at a step that is accepted, before it is made.
    pub fn note(&mut self, desk: &Desk, step: Step) {
        match step {
            Step::Start { r, .. } => self.carried[r.index()] = [0; Rank::COUNT],
            Step::Take { b, a } => {
                let carried = &mut self.carried[b.index()][a.index()];
                *carried = carried.saturating_sub(1);
            }
            Step::Move { r, h } if is_restart(desk, r, h) => self.note_restart(desk, r, h),
            _ => {}
        }
    }

    fn note_restart(&mut self, desk: &Desk, r: Rank, h: Host) {
        let moving = || Rank::all().filter(|&s| desk.standing(s).is_moving());
        let hosts = |s| hosts_of(desk.standing(s));
        let joined = |s| desk.line(r, s) == Line::Notice && hosts(s) == [h; 2];
        let carried = &mut self.carried[r.index()];
        self.all += 1;
        self.beside_a_move += u64::from(moving().any(|s| hosts(s).contains(&h)));
        self.beside_a_move_there += u64::from(moving().any(|s| hosts(s)[1] == h));
        self.both_joined += u64::from(moving().any(joined));
        self.leaving_list_and_lane += u64::from(has_list_and_lane(desk.mail(), r));
        self.carrying_again += u64::from(carried.iter().any(|&count| count > 0));
        for s in Rank::all() {
            carried[s.index()] = desk.mail().unread_between(s, r);
        }
    }

    /// All counts with what they are counts of.
    pub fn rows(&self) -> [(&'static str, u64); Restarts::ROWS] {
        [
            ("moves to the present host", self.all),
            (
                "moves to the present host while another rank moves from or to it",
                self.beside_a_move,
            ),
            (
                "moves to the present host while another rank moves to it",
                self.beside_a_move_there,
            ),
            (
                "moves to the present host while the other end of a line restarts on it",
                self.both_joined,
            ),
            (
                "moves to the present host with messages in the list and on a lane",
                self.leaving_list_and_lane,
            ),
            (
                "moves to the present host with messages that an earlier one carried",
                self.carrying_again,
            ),
        ]
    }
}

/// Whether an accepted move goes to the rank's present host.
pub fn is_restart(desk: &Desk, r: Rank, h: Host) -> bool {
    hosts_of(desk.standing(r)) == [h; 2]
}

/// The hosts of the old and of the new process; they are one process where the
/// rank runs.
fn hosts_of(standing: Standing) -> [Host; 2] {
    match standing {
        Standing::Running(vmid) => [vmid.host(); 2],
        Standing::Moving { mover, arrival } => [mover.host(), arrival.host()],
        Standing::Unstarted | Standing::Ended(_) => unreachable!("the rank has a process"),
    }
}

fn has_list_and_lane(mail: &Mail, r: Rank) -> bool {
    let counts = || mail.senders_to(r).into_iter().map(|s| mail.counts(s, r));
    counts().any(|[_, _, list, _]| list > 0) && counts().any(|[.., lane]| lane > 0)
}
