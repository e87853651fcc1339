//! The log of a pass: ranks joined each with each other exchange messages, and
//! now and then one of them moves, is drained and lands while its peers call
//! it at its new place. Every record is accepted.

use engine::bits::Bits;
use engine::{Await, Desk, Host, Line, Rank, Step};
use std::ops::RangeInclusive;

/// So many records stand between two moves.
const BETWEEN_MOVES: usize = 4_000;

/// A log that grows along its own run.
pub struct Pass {
    pub log: Vec<u8>,
    pub desk: Desk,
    pub bits: Bits,
    records: usize,
    /// The desk fills to the end of this range and empties to its start.
    unread: RangeInclusive<usize>,
    filling: bool,
}

impl Pass {
    /// The first so many ranks started, and each joined with each.
    pub fn joined(ranks: u8, unread: RangeInclusive<usize>, seed: u64) -> Pass {
        let mut pass = Pass {
            log: Vec::new(),
            desk: Desk::fresh(),
            bits: Bits::new(seed),
            records: 0,
            unread,
            filling: true,
        };
        for r in (0..ranks).map(Rank) {
            let h = Host(r.0 % Host::COUNT as u8);
            pass.record(Step::Start { r, h });
            for peer in (0..r.0).map(Rank) {
                pass.connect(r, peer);
            }
        }
        pass
    }

    /// Appends a record and makes its step.
    pub fn record(&mut self, step: Step) {
        let position = self.log.len() as u64;
        step.write(&mut self.log);
        let outcome = self.desk.step_sound(&self.log, position);
        assert!(outcome.answer.is_ok(), "{step:?}: {:?}", outcome.answer);
        self.records += 1;
    }

    /// A call and the routes that lead it to its end.
    pub fn connect(&mut self, a: Rank, b: Rank) {
        self.record(Step::Call { a, b });
        while self.desk.line(a, b) != Line::Plain {
            self.record(Step::Route { a, b });
        }
    }

    /// Goes on until the log has so many records.
    pub fn run_to(&mut self, records: usize) {
        let mut next_move = BETWEEN_MOVES;
        while self.records < records {
            if self.records < next_move {
                self.exchange();
            } else {
                let r = self.any_rank();
                self.move_and_land(r);
                next_move = self.records + BETWEEN_MOVES;
            }
        }
    }

    /// A send or a take between two ranks that can do it now.
    pub fn exchange(&mut self) {
        let sends = self.sends_next();
        let step = loop {
            let (a, b) = (self.any_rank(), self.any_rank());
            let step = if sends {
                let value = self.bits.next_bits();
                Step::Send { a, b, value }
            } else {
                Step::Take { b, a }
            };
            if self.desk.check(step).is_ok() {
                break step;
            }
        };
        self.record(step);
    }

    /// Of eight exchanges five are sends while the desk fills, and three while
    /// it empties.
    fn sends_next(&mut self) -> bool {
        let unread = self.desk.mail().unread();
        if unread <= *self.unread.start() {
            self.filling = true;
        } else if unread >= *self.unread.end() {
            self.filling = false;
        }
        if !self.can_take() {
            return true;
        }
        unread < *self.unread.end() && (self.bits.below(8) < 5) == self.filling
    }

    /// Whether a message is unread that its receiver can take: one that moves
    /// can't.
    fn can_take(&self) -> bool {
        let receives = |b: Rank| !self.desk.mail().senders_to(b).is_empty();
        Rank::all().any(|b| receives(b) && self.desk.standing(b).is_running())
    }

    /// A whole move, with exchanges between its steps.
    fn move_and_land(&mut self, r: Rank) {
        let h = self.other_host(r);
        self.record(Step::Move { r, h });
        let peers: Vec<Rank> = Rank::all().filter(|&s| s != r).collect();
        for &b in &peers {
            self.exchange();
            self.record(Step::Heed { b, r });
        }
        for &s in &peers {
            self.connect(s, r);
            self.exchange();
            while self.desk.awaits(r, s) != Await::None {
                self.record(Step::Drain { r, s });
            }
        }
        self.record(Step::Land { r });
    }

    /// A host on which a running rank does not run.
    pub fn other_host(&mut self, r: Rank) -> Host {
        let end = self.desk.standing(r).current_end();
        let here = end.expect("the rank runs").host();
        let further = 1 + self.bits.below(Host::COUNT as u32 - 1) as u8;
        Host((here.0 + further) % Host::COUNT as u8)
    }

    /// Any of the sixteen.
    pub fn any_rank(&mut self) -> Rank {
        Rank(self.bits.below(Rank::COUNT as u32) as u8)
    }
}
