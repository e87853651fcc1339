//! What each accepted step does and answers: paper 01, "The step log", one
//! function for each kind, in its order, with what paper 02 changes: running
//! numbers, Change 4, and the look, Change 6. Each assumes that the step passed
//! all checks in this sound state.

use crate::desk::Desk;
use crate::mail::Place;
use crate::names::{Host, Rank, Vmid};
use crate::record::Step;
use crate::refusal::{count_value, Values};
use crate::snapshot::{Call, Standing};

impl Desk {
    /// Carries out a step that passed all checks, and gives its values.
    #[inline]
    pub(crate) fn apply(&mut self, step: Step) -> Values {
        match step {
            Step::Start { r, h } => self.start(r, h),
            Step::Call { a, b } => self.open_call(a, b),
            Step::Route { a, b } => self.route(a, b),
            Step::Send { a, b, value } => self.send(a, b, value),
            Step::Take { b, a } => self.take(b, a),
            Step::Move { r, h } => self.begin_move(r, h),
            Step::Heed { b, r } => self.heed(b, r),
            Step::Drain { r, s } => self.drain(r, s),
            Step::Land { r } => self.land(r),
            Step::Part { a, b } => self.part(a, b),
            Step::End { r } => self.end(r),
            Step::Look { r } => self.look(r),
        }
    }

    fn start(&mut self, r: Rank, h: Host) -> Values {
        let vmid = self.draw_number(h);
        self.standings[r.index()] = Standing::Running(vmid);
        for table in &mut self.tables {
            table[r.index()] = vmid;
        }
        [host_value(vmid), number_value(vmid), 0]
    }

    fn open_call(&mut self, a: Rank, b: Rank) -> Values {
        let posted = self.table_entry(a, b);
        self.calls[a.index()] = Some(Call { called: b, posted });
        [host_value(posted), number_value(posted), 0]
    }

    fn route(&mut self, a: Rank, b: Rank) -> Values {
        let Some(end) = self.standing(b).current_end() else {
            self.calls[a.index()] = None;
            return [2, 0, 0];
        };
        let reached = Some(Call {
            called: b,
            posted: end,
        });
        let verdict = if self.call(a) == reached {
            self.plain[a.index()].insert(b);
            self.plain[b.index()].insert(a);
            self.calls[a.index()] = None;
            if self.call(b).is_some_and(|call| call.called == a) {
                self.calls[b.index()] = None;
            }
            0
        } else {
            self.tables[a.index()][b.index()] = end;
            self.calls[a.index()] = reached;
            1
        };
        [verdict, host_value(end), number_value(end)]
    }

    fn send(&mut self, a: Rank, b: Rank, value: u32) -> Values {
        let place = if self.notice[a.index()].contains(b) {
            Place::MoverLane
        } else {
            Place::CurrentLane
        };
        let unread = self.mail.append(a, b, value, place);
        [count_value(unread), 0, 0]
    }

    /// "A take gives it as v3": the message's running number.
    fn take(&mut self, b: Rank, a: Rank) -> Values {
        let (taken, left) = self
            .mail
            .take_first(a, b)
            .expect("check 22: the pair has a message unread");
        [taken.value, count_value(left), taken.number]
    }

    fn begin_move(&mut self, r: Rank, h: Host) -> Values {
        let Standing::Running(mover) = self.standing(r) else {
            unreachable!("checks 7, 9 and 10: the rank is running");
        };
        let arrival = self.draw_number(h);
        self.standings[r.index()] = Standing::Moving { mover, arrival };
        for s in self.mail.senders_to(r) {
            self.mail.shift(s, r, Place::CurrentList, Place::MoverList);
            self.mail.shift(s, r, Place::CurrentLane, Place::MoverLane);
        }
        let plain = std::mem::take(&mut self.plain[r.index()]);
        for s in plain {
            self.plain[s.index()].remove(r);
            self.notice[s.index()].insert(r);
        }
        let notice = std::mem::take(&mut self.notice[r.index()]);
        for s in notice {
            self.unheeded[s.index()].remove(r);
            self.marked[s.index()].insert(r);
        }
        self.unheeded[r.index()] = plain;
        self.marked[r.index()] = notice;
        let awaits = plain.len() + notice.len();
        [host_value(arrival), number_value(arrival), awaits]
    }

    fn heed(&mut self, b: Rank, r: Rank) -> Values {
        let moved = self
            .mail
            .shift(r, b, Place::CurrentLane, Place::CurrentList);
        self.notice[b.index()].remove(r);
        self.unheeded[r.index()].remove(b);
        self.marked[r.index()].insert(b);
        [count_value(moved), 0, 0]
    }

    /// "And a drain that moves a message does too."
    fn drain(&mut self, r: Rank, s: Rank) -> Values {
        match self.mail.list_first_of_mover_lane(s, r) {
            Some(moved) => [0, moved.value, moved.number],
            None => {
                self.marked[r.index()].remove(s);
                [1, 0, 0]
            }
        }
    }

    fn land(&mut self, r: Rank) -> Values {
        let Standing::Moving { arrival, .. } = self.standing(r) else {
            unreachable!("check 11: the rank is moving");
        };
        self.standings[r.index()] = Standing::Running(arrival);
        let mut listed = 0;
        for s in self.mail.senders_to(r) {
            self.mail.shift(s, r, Place::MoverList, Place::CurrentList);
            listed += count_value(self.mail.counts(s, r)[Place::CurrentList as usize]);
        }
        [listed, 0, 0]
    }

    fn part(&mut self, a: Rank, b: Rank) -> Values {
        let towards_a = self
            .mail
            .shift(b, a, Place::CurrentLane, Place::CurrentList);
        let towards_b = self
            .mail
            .shift(a, b, Place::CurrentLane, Place::CurrentList);
        self.plain[a.index()].remove(b);
        self.plain[b.index()].remove(a);
        [count_value(towards_a), count_value(towards_b), 0]
    }

    fn end(&mut self, r: Rank) -> Values {
        let Standing::Running(last) = self.standing(r) else {
            unreachable!("checks 7, 9 and 10: the rank is running");
        };
        self.standings[r.index()] = Standing::Ended(last);
        [0; 3]
    }

    /// "Look now names the sender of the message sent first of all those unread
    /// by r, whatever its place" (paper 02, Change 6).
    fn look(&self, r: Rank) -> Values {
        let sender = self.mail.oldest_sender_to(r);
        let sender = sender.expect("check 22: the rank has a message unread");
        [u32::from(sender.0), 0, 0]
    }

    /// "h's next number".
    fn draw_number(&mut self, host: Host) -> Vmid {
        let drawn = &mut self.drawn[host.index()];
        *drawn += 1;
        Vmid(host, *drawn)
    }
}

fn host_value(vmid: Vmid) -> u32 {
    u32::from(vmid.host().0)
}

fn number_value(vmid: Vmid) -> u32 {
    u32::from(vmid.number())
}
