//! Pseudo-random steps for tests and comparisons: of all kinds of paper 01, "The
//! step log", proposed by looking at the state, so that most are accepted. The
//! same seed and mix always give the same log.

use crate::bits::Bits;
use crate::desk::Desk;
use crate::field::Field;
use crate::mail::Mail;
use crate::names::{Host, Rank};
use crate::record::{Kind, Step};
use crate::refusal::Refusal;

/// How often each sort of step is proposed.
#[derive(Clone, Copy, Debug)]
pub struct Mix {
    /// The weight of each kind, in the order of `Kind::ALL`; kinds behind the
    /// last have none. The weights of send and take are those of a filling
    /// desk; they change places while the desk empties.
    pub weights: &'static [u32],
    /// One step in so many has arbitrary fields.
    pub stray_one_in: u32,
    /// No rank is ended any more once so many are.
    pub most_ended: usize,
    /// Starts and moves go to so many hosts, from 0 on; stray ones to any. The
    /// fewer there are, the more moves go to the rank's present host.
    pub hosts: usize,
}

impl Mix {
    /// All kinds often, with many overlapping moves.
    pub const BROAD: Mix = Mix {
        weights: &[2, 16, 24, 60, 12, 6, 5, 24, 6, 4, 1, 4],
        stray_one_in: 12,
        most_ended: 5,
        hosts: Host::COUNT,
    };

    /// Mostly sends and takes, with moves now and then.
    pub const TRAFFIC: Mix = Mix {
        weights: &[2, 10, 15, 400, 260, 1, 6, 120, 6, 1, 0, 4],
        stray_one_in: 1_000,
        most_ended: 0,
        hosts: Host::COUNT,
    };

    /// Many ranks move at once between two hosts or restart on theirs, and
    /// lines stand between them.
    pub const RESTARTS: Mix = Mix {
        weights: &[8, 30, 40, 40, 12, 20, 5, 30, 12, 2, 0, 6],
        stray_one_in: 30,
        most_ended: 0,
        hosts: 2,
    };

    /// Many looks at what several ranks have sent, while ranks move between two
    /// hosts or restart on theirs, part and end.
    pub const LOOKS: Mix = Mix {
        weights: &[2, 40, 60, 60, 20, 8, 5, 30, 12, 12, 4, 90],
        stray_one_in: 30,
        most_ended: 12,
        hosts: 2,
    };

    /// Whether a step names no host but those that starts and moves go to.
    fn has_hosts_of(&self, step: Step) -> bool {
        let mut fields = step.fields();
        fields.all(|(field, number)| field != Field::Host || number < self.hosts as u64)
    }
}

/// A source of proposed steps.
#[derive(Clone, Debug)]
pub struct Proposer {
    mix: Mix,
    bits: Bits,
    filling: bool,
}

impl Proposer {
    /// How many kinds are tried before a stray step is proposed.
    const TRIES: u32 = 8;

    /// One whose proposals depend on the seed, the mix and the desks that are
    /// shown.
    pub fn new(seed: u64, mix: Mix) -> Proposer {
        Proposer {
            mix,
            bits: Bits::new(seed),
            filling: true,
        }
    }

    /// A step for this desk: mostly one that it accepts, or that only a full
    /// desk refuses.
    pub fn propose(&mut self, desk: &Desk) -> Step {
        self.turn_tide(desk.mail().unread());
        if self.bits.below(self.mix.stray_one_in) == 0 {
            return self.stray_step(desk);
        }
        for _ in 0..Self::TRIES {
            let kind = self.weighted_kind();
            if let Some(step) = self.acceptable_step(desk, kind) {
                return step;
            }
        }
        self.stray_step(desk)
    }

    /// The desk fills until it is full, stays so for a while, and empties.
    fn turn_tide(&mut self, unread: usize) {
        if unread >= Mail::LIMIT && self.bits.below(64) == 0 {
            self.filling = false;
        } else if unread < Mail::LIMIT / 64 {
            self.filling = true;
        }
    }

    fn weight(&self, kind: Kind) -> u32 {
        let weighed = match kind {
            Kind::Send if !self.filling => Kind::Take,
            Kind::Take if !self.filling => Kind::Send,
            other => other,
        };
        let weight = self.mix.weights.get(weighed.index());
        weight.copied().unwrap_or(0)
    }

    fn weighted_kind(&mut self) -> Kind {
        let mut left = self.bits.below(self.mix.weights.iter().sum());
        for kind in Kind::ALL {
            match left.checked_sub(self.weight(kind)) {
                Some(rest) => left = rest,
                None => return kind,
            }
        }
        unreachable!("the weights of the kinds add up to their sum")
    }

    /// Some step of this kind that the desk would accept, or would if it were
    /// not just filled, sought from an arbitrary pair of names on.
    fn acceptable_step(&mut self, desk: &Desk, kind: Kind) -> Option<Step> {
        if kind == Kind::End && self.enough_ended(desk) {
            return None;
        }
        let offset = self.bits.next_bits() as u8;
        let stride = self.bits.next_bits() as u8 | 1;
        let value = self.bits.next_bits();
        (0..=u8::MAX)
            .map(|turn| offset.wrapping_add(turn.wrapping_mul(stride)))
            .map(|pair| step_of(kind, [pair >> 4, pair & 15], value))
            .filter(|&step| self.mix.has_hosts_of(step))
            .find(|&step| match desk.check(step) {
                Ok(()) => true,
                Err(refusal) => self.filling && refusal == Refusal::DeskFull,
            })
    }

    fn enough_ended(&self, desk: &Desk) -> bool {
        let ended = Rank::all().filter(|&rank| desk.standing(rank).is_ended());
        ended.count() >= self.mix.most_ended
    }

    /// A step of any kind with names mostly in range; a look in place of an
    /// end too many, lest a long log run out of ranks.
    fn stray_step(&mut self, desk: &Desk) -> Step {
        let kind = Kind::ALL[self.bits.below(Kind::ALL.len() as u32) as usize];
        let names = [self.stray_name(), self.stray_name()];
        let step = step_of(kind, names, self.bits.next_bits());
        match step {
            Step::End { r } if desk.check(step).is_ok() && self.enough_ended(desk) => {
                Step::Look { r }
            }
            other => other,
        }
    }

    fn stray_name(&mut self) -> u8 {
        let limit = if self.bits.below(16) == 0 { 256 } else { 16 };
        self.bits.below(limit) as u8
    }
}

/// The step of a kind that names these, its ranks and hosts in order, and has
/// this value; what the kind has none of is left aside.
pub fn step_of(kind: Kind, names: [u8; 2], value: u32) -> Step {
    let mut names = names.into_iter();
    let step = Step::from_fields(kind, |field| match field {
        Field::Rank(_) | Field::Host => names.next().map(u64::from),
        Field::Value => Some(value.into()),
    });
    step.expect("no record names more than two ranks and hosts")
}

/// A log of so many whole records, proposed along their own run.
pub fn random_log(seed: u64, mix: Mix, records: usize) -> Vec<u8> {
    let mut proposer = Proposer::new(seed, mix);
    let mut desk = Desk::fresh();
    let mut log = Vec::new();
    for _ in 0..records {
        let position = log.len() as u64;
        proposer.propose(&desk).write(&mut log);
        desk.step_sound(&log, position);
    }
    log
}
