//! How often a run came to a look of paper 02, Change 6, that could name another
//! rank than "the sender of the message sent first of all those unread by r".

use super::past::{moving, Past};
use engine::{Desk, Rank, RunningNumber, Step};

/// What each count is a count of. From the third on, two or more senders have
/// something unread.
const SITUATIONS: [&str; Looks::ROWS] = [
    "looks with messages of two or more senders unread",
    "looks with messages of three or more senders unread",
    "looks whose oldest message is not of the lowest sender",
    "looks whose oldest message is not of the highest sender",
    "looks whose oldest message is at a higher place than one of another sender",
    "looks whose oldest message has a higher running number than one of another sender",
    "looks of a rank that has just landed",
    "looks while one rank moves",
    "looks while two or more ranks move",
    "looks whose oldest message is of an ended sender",
    "looks where the rank or the sender of its oldest message has restarted",
    "looks of a rank that has parted from the sender of its oldest message",
];

/// A message: who sent it, and its running number.
type Sent = (Rank, RunningNumber);

/// The counts, each of accepted looks.
#[derive(Clone, Debug, Default)]
pub struct Looks {
    counts: [u64; Looks::ROWS],
    /// For each receiver what it has unread, in order of sending; kept here by
    /// the sends and takes alone, apart from the engine's own order.
    unread: [Vec<Sent>; Rank::COUNT],
}

impl Looks {
    /// How many rows there are.
    pub const ROWS: usize = 12;

    /// Looks at a step that is accepted, before it is made.
    pub fn note(&mut self, desk: &Desk, step: Step, past: &Past) {
        match step {
            Step::Start { r, .. } => self.forget(r),
            Step::Send { a, b, .. } => {
                self.unread[b.index()].push((a, desk.mail().sent(a, b) + 1));
            }
            Step::Take { b, a } => {
                let unread = &mut self.unread[b.index()];
                let first = unread.iter().position(|&(sender, _)| sender == a);
                unread.remove(first.expect("the take is accepted"));
            }
            Step::Look { r } => self.note_look(desk, r, past),
            _ => {}
        }
    }

    /// A rank is started once in a log: nothing is known of it from another.
    fn forget(&mut self, rank: Rank) {
        self.unread[rank.index()].clear();
        for unread in &mut self.unread {
            unread.retain(|&(sender, _)| sender != rank);
        }
    }

    fn note_look(&mut self, desk: &Desk, r: Rank, past: &Past) {
        let (oldest, number) = self.unread[r.index()][0];
        let others = self.firsts_of_others(r, oldest);
        let any = |holds: &dyn Fn(Sent) -> bool| others.iter().any(|&first| holds(first));
        let place = |sender| first_place(desk, sender, r);
        let moving = moving(desk);
        let met = [
            true,
            others.len() >= 2,
            any(&|(sender, _)| sender < oldest),
            any(&|(sender, _)| sender > oldest),
            any(&|(sender, _)| place(sender) < place(oldest)),
            any(&|(_, other)| other < number),
            past.has_just_landed(r),
            moving == 1,
            moving >= 2,
            desk.standing(oldest).is_ended(),
            past.has_restarted(r, oldest),
            past.have_parted(r, oldest),
        ];
        let choice = !others.is_empty();
        for (count, met) in self.counts.iter_mut().zip(met) {
            *count += u64::from(choice && met);
        }
    }

    /// Of each other sender the first message that a rank has unread: it is at
    /// the lowest place of its pair and has the lowest number.
    fn firsts_of_others(&self, receiver: Rank, oldest: Rank) -> Vec<Sent> {
        let mut firsts: Vec<Sent> = Vec::new();
        for &(sender, number) in &self.unread[receiver.index()] {
            let is_known = |&(known, _): &Sent| known == sender;
            if sender != oldest && !firsts.iter().any(is_known) {
                firsts.push((sender, number));
            }
        }
        firsts
    }

    /// All counts with what they are counts of.
    pub fn rows(&self) -> [(&'static str, u64); Looks::ROWS] {
        std::array::from_fn(|row| (SITUATIONS[row], self.counts[row]))
    }
}

/// The place of a pair's first message.
fn first_place(desk: &Desk, sender: Rank, receiver: Rank) -> Option<usize> {
    let counts = desk.mail().counts(sender, receiver);
    counts.iter().position(|&count| count > 0)
}
