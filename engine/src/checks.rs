//! The checks from 4 on: those of paper 01, "Where each step is checked",
//! without 18 (paper 02, Change 2, "Number 18 is given no more"), and 28, which
//! Change 4 has "tested after 25". For each kind the checks that name it stand
//! by ascending number, so that "the lowest number that applies is given".

use crate::desk::Desk;
use crate::mail::Mail;
use crate::names::{Host, Rank, Vmid};
use crate::record::Step;
use crate::refusal::Refusal;
use crate::snapshot::{Await, Line};

type Passed = Result<(), Refusal>;

#[inline]
fn refuse_if(applies: bool, refusal: Refusal) -> Passed {
    if applies {
        Err(refusal)
    } else {
        Ok(())
    }
}

impl Desk {
    /// Whether this step is accepted, or else the lowest number that applies.
    #[inline]
    pub fn check(&self, step: Step) -> Passed {
        match step {
            Step::Start { r, h } => {
                rank_in_range(r)?;
                host_in_range(h)?;
                refuse_if(self.standing(r).is_started(), Refusal::AlreadyStarted)?;
                self.numbers_left(h)
            }
            Step::Call { a, b } => {
                self.two_started(a, b)?;
                self.first_running(a)?;
                refuse_if(self.line(a, b) != Line::None, Refusal::LineStands)?;
                self.no_call_open(a)
            }
            Step::Route { a, b } => {
                self.two_started(a, b)?;
                let called = self.call(a).map(|call| call.called);
                refuse_if(called != Some(b), Refusal::NoCall)
            }
            Step::Send { a, b, .. } => {
                self.two_started(a, b)?;
                self.first_running(a)?;
                refuse_if(self.line(a, b) == Line::None, Refusal::NoLine)?;
                refuse_if(self.mail().unread() >= Mail::LIMIT, Refusal::DeskFull)?;
                let exhausted = self.mail().sent(a, b) == Mail::MOST_SENT;
                refuse_if(exhausted, Refusal::SendsExhausted)
            }
            Step::Take { b, a } => {
                self.two_started(b, a)?;
                self.first_running(b)?;
                let nothing = !self.mail().senders_to(b).contains(a);
                refuse_if(nothing, Refusal::NothingUnread)
            }
            Step::Move { r, h } => {
                rank_in_range(r)?;
                host_in_range(h)?;
                self.started(r)?;
                self.first_running(r)?;
                self.no_call_open(r)?;
                self.numbers_left(h)
            }
            Step::Heed { b, r } => {
                self.two_started(b, r)?;
                self.first_not_ended(b)?;
                refuse_if(self.line(b, r) != Line::Notice, Refusal::LineIsNotNotice)
            }
            Step::Drain { r, s } => {
                self.two_started(r, s)?;
                self.first_not_ended(r)?;
                self.first_moving(r)?;
                let awaited = self.awaits(r, s);
                refuse_if(awaited == Await::None, Refusal::NoAwait)?;
                let [_, on_lane, ..] = self.mail().counts(s, r);
                let stuck = on_lane == 0 && awaited == Await::Unheeded;
                refuse_if(stuck, Refusal::NothingToDrain)
            }
            Step::Land { r } => {
                self.one_started(r)?;
                self.first_not_ended(r)?;
                self.first_moving(r)?;
                refuse_if(self.has_awaits(r), Refusal::AwaitStands)
            }
            Step::Part { a, b } => {
                self.two_started(a, b)?;
                self.first_running(a)?;
                let line = self.line(a, b);
                refuse_if(line == Line::None, Refusal::NoLine)?;
                refuse_if(line == Line::Notice, Refusal::LineIsNotice)
            }
            Step::End { r } => {
                self.one_started(r)?;
                self.first_running(r)?;
                refuse_if(self.has_lines(r), Refusal::LineStands)?;
                self.no_call_open(r)?;
                let unread = !self.mail().senders_to(r).is_empty();
                refuse_if(unread, Refusal::UnreadRemain)
            }
            Step::Look { r } => {
                self.one_started(r)?;
                self.first_running(r)?;
                let nothing = self.mail().senders_to(r).is_empty();
                refuse_if(nothing, Refusal::NothingUnread)
            }
        }
    }

    /// 4, 7 for a record that names one rank and no host.
    fn one_started(&self, rank: Rank) -> Passed {
        rank_in_range(rank)?;
        self.started(rank)
    }

    /// 4, 6, 7 for a record that names two ranks.
    fn two_started(&self, first: Rank, second: Rank) -> Passed {
        rank_in_range(first)?;
        rank_in_range(second)?;
        refuse_if(first == second, Refusal::RankNamedTwice)?;
        self.started(first)?;
        self.started(second)
    }

    /// 7: a named rank is unstarted.
    fn started(&self, rank: Rank) -> Passed {
        refuse_if(!self.standing(rank).is_started(), Refusal::RankUnstarted)
    }

    /// 9: first rank ended.
    fn first_not_ended(&self, rank: Rank) -> Passed {
        refuse_if(self.standing(rank).is_ended(), Refusal::RankEnded)
    }

    /// 9, 10: first rank ended, first rank moving.
    fn first_running(&self, rank: Rank) -> Passed {
        self.first_not_ended(rank)?;
        refuse_if(self.standing(rank).is_moving(), Refusal::RankMoving)
    }

    /// 11: rank not moving.
    fn first_moving(&self, rank: Rank) -> Passed {
        refuse_if(!self.standing(rank).is_moving(), Refusal::RankNotMoving)
    }

    /// 13: a call of its own is open.
    fn no_call_open(&self, rank: Rank) -> Passed {
        refuse_if(self.call(rank).is_some(), Refusal::CallOpen)
    }

    /// 25: 65,535 numbers drawn on h.
    fn numbers_left(&self, host: Host) -> Passed {
        let exhausted = self.drawn(host) == Vmid::LAST_NUMBER;
        refuse_if(exhausted, Refusal::NumbersExhausted)
    }
}

/// 4: a rank above 15.
fn rank_in_range(rank: Rank) -> Passed {
    refuse_if(!rank.in_range(), Refusal::RankOutOfRange)
}

/// 5: host above 7.
fn host_in_range(host: Host) -> Passed {
    refuse_if(!host.in_range(), Refusal::HostOutOfRange)
}
