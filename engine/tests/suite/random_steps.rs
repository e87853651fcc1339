//! Long lists of pseudo-random steps: after each step the state is sound, and
//! for each ordered pair the values taken and then those unread are the values
//! sent, with the numbers 1, 2, 3 up to the count sent. The lists must reach the
//! situations that are easy to get wrong.

use crate::situations::Situations;
use engine::proposals::{Mix, Proposer};
use engine::{broken_clauses, Desk, Kind, Rank, Snapshot, Step, Values};

const STEPS: usize = 25_000;

/// The values sent and taken, from the answers alone, for each ordered pair.
struct History {
    sent: Vec<Vec<u32>>,
    taken: Vec<Vec<u32>>,
}

fn pair(sender: Rank, receiver: Rank) -> usize {
    sender.index() * Rank::COUNT + receiver.index()
}

impl History {
    fn new() -> History {
        let none = vec![Vec::new(); Rank::COUNT * Rank::COUNT];
        History {
            sent: none.clone(),
            taken: none,
        }
    }

    fn note(&mut self, step: Step, values: Values) {
        match step {
            Step::Send { a, b, value } => self.sent[pair(a, b)].push(value),
            Step::Take { b, a } => {
                let taken = &mut self.taken[pair(a, b)];
                taken.push(values[0]);
                assert_eq!(values[2] as usize, taken.len(), "a gap in the numbers");
            }
            _ => {}
        }
    }

    /// Taken values followed by unread values are the sent values, and likewise
    /// with the numbers. That those taken are the first of those sent was seen
    /// when they were taken.
    fn check_unread(&self, state: &Snapshot) {
        let mut counts: Vec<usize> = self.taken.iter().map(Vec::len).collect();
        for message in &state.messages {
            let pair = pair(message.sender, message.receiver);
            assert_eq!(self.sent[pair].get(counts[pair]), Some(&message.value));
            counts[pair] += 1;
            assert_eq!(message.number as usize, counts[pair]);
        }
        let sent: Vec<usize> = self.sent.iter().map(Vec::len).collect();
        assert_eq!(counts, sent);
        let kept = state.sent.iter().flatten();
        assert!(kept.map(|&count| count as usize).eq(sent));
    }

    fn check_taken(&self) {
        for (sent, taken) in self.sent.iter().zip(&self.taken) {
            assert!(sent.starts_with(taken));
        }
    }
}

/// What the lists come to.
#[derive(Default)]
struct Reached {
    accepted: [u32; Kind::ALL.len()],
    situations: Situations,
}

impl Reached {
    /// Every kind must be accepted often, and every situation come up but those
    /// of a full pair, to which no list comes by chance.
    fn check(&self) {
        let accepted = &self.accepted;
        for (kind, &count) in Kind::ALL.iter().zip(accepted) {
            let least = match kind {
                Kind::Start | Kind::End => 20,
                _ => 1_000,
            };
            assert!(count >= least, "{kind:?} is accepted {count} times");
        }
        assert!(accepted.iter().sum::<u32>() >= 100_000, "{accepted:?}");
        let full_pairs = self.situations.full_pairs.rows();
        let rows = self.situations.rows().into_iter();
        for (situation, count) in rows.filter(|row| !full_pairs.contains(row)) {
            assert!(count >= 50, "{situation}: {count}");
        }
    }
}

/// Checks a long list step by step, and gives the desk that it leaves.
fn run(seed: u64, mix: Mix, reached: &mut Reached) -> Desk {
    run_for(STEPS, seed, mix, reached)
}

fn run_for(steps: usize, seed: u64, mix: Mix, reached: &mut Reached) -> Desk {
    let mut proposer = Proposer::new(seed, mix);
    let mut desk = Desk::fresh();
    let mut history = History::new();
    let mut record = Vec::new();
    for _ in 0..steps {
        let step = proposer.propose(&desk);
        reached.situations.note_before(&desk, step);
        record.clear();
        step.write(&mut record);
        let outcome = desk.step_sound(&record, 0);
        assert_eq!(outcome.next, record.len() as u64);
        if let Ok(values) = outcome.answer {
            history.note(step, values);
            reached.situations.note_after(step, values);
            reached.accepted[step.kind().index()] += 1;
        }
        let state = desk.snapshot();
        assert_eq!(broken_clauses(&state), [], "seed {seed} after {step:?}");
        history.check_unread(&state);
    }
    history.check_taken();
    desk
}

#[test]
fn random_steps_keep_soundness_and_order() {
    let mut reached = Reached::default();
    for seed in 4..10 {
        let desk = run(seed, Mix::BROAD, &mut reached);
        let ended = Rank::all().filter(|&rank| desk.standing(rank).is_ended());
        assert!(ended.count() >= 3, "seed {seed}");
    }
    for seed in 10..12 {
        run(seed, Mix::RESTARTS, &mut reached);
    }
    for seed in 12..52 {
        run_for(500, seed, Mix::LOOKS, &mut reached);
    }
    reached.check();
}
