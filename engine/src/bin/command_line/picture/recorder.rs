//! The story of some steps, recorded along them from the desk's state.

use super::story::{Process, Story, Track, OPEN};
use super::unread::Unread;
use crate::steps::Told;
use engine::{Desk, Rank, Standing, Step, Vmid};

/// A story in the making.
pub struct Recorder {
    first: u64,
    rows: Vec<Told>,
    processes: Vec<Process>,
    unread: Unread,
}

impl Recorder {
    /// Before the first step that is recorded, whose number this is.
    pub fn new(first: u64, desk: &Desk) -> Recorder {
        let mut recorder = Recorder {
            first,
            rows: Vec::new(),
            processes: Vec::new(),
            unread: Unread::of(desk),
        };
        for rank in Rank::all() {
            match desk.standing(rank) {
                Standing::Unstarted | Standing::Ended(_) => {}
                Standing::Running(vmid) => recorder.begin(rank, vmid, 0),
                Standing::Moving { mover, arrival } => {
                    recorder.begin(rank, mover, 0);
                    recorder.begin_move(rank, arrival, 0);
                }
            }
        }
        recorder
    }

    /// Records a step, with the desk after it.
    pub fn step(&mut self, told: Told, desk: &Desk) {
        let accepted = told.step.filter(|_| told.number == 0);
        self.rows.push(told);
        if let Some(step) = accepted {
            let row = self.rows.len();
            self.note_processes(step, row, desk);
            self.unread.note(step, row, desk);
        }
    }

    /// The story, with the messages that a step is about.
    pub fn story(self) -> Story {
        let mut story = Story {
            first: self.first,
            rows: self.rows,
            processes: self.processes,
            tracks: self.unread.tracks(),
            untouched: [0; Rank::COUNT],
        };
        let messages = story.tracks.iter().filter(|track| track.value.is_some());
        for track in messages.filter(|track| !track.touched) {
            story.untouched[track.receiver.index()] += 1;
        }
        let ranks = story.ranks();
        let drawn = |track: &Track| track.touched && ranks.contains(&track.receiver);
        story.tracks.retain(drawn);
        story
    }

    fn note_processes(&mut self, step: Step, row: usize, desk: &Desk) {
        match step {
            Step::Start { r, .. } => self.begin(r, current_end(r, desk), row),
            Step::Move { r, .. } => self.begin_move(r, current_end(r, desk), row),
            Step::Land { r } => {
                self.living(r, |process| process.moves != OPEN).to = row;
                self.living(r, |process| process.runs == OPEN).runs = row;
            }
            Step::End { r } => {
                let process = self.living(r, |_| true);
                (process.to, process.ended) = (row, true);
            }
            _ => {}
        }
    }

    fn begin(&mut self, rank: Rank, vmid: Vmid, row: usize) {
        self.processes.push(Process {
            rank,
            vmid,
            slot: 0,
            from: row,
            runs: row,
            moves: OPEN,
            to: OPEN,
            ended: false,
        });
    }

    fn begin_move(&mut self, rank: Rank, arrival: Vmid, row: usize) {
        let mover = self.living(rank, |_| true);
        mover.moves = row;
        let slot = 1 - mover.slot;
        self.begin(rank, arrival, row);
        let arrival = self.living(rank, |process| process.moves == OPEN);
        (arrival.slot, arrival.runs) = (slot, OPEN);
    }

    /// A process of a started rank that has not gone.
    fn living(&mut self, rank: Rank, is_it: impl Fn(&Process) -> bool) -> &mut Process {
        let mut processes = self.processes.iter_mut();
        processes
            .find(|process| process.rank == rank && process.to == OPEN && is_it(process))
            .expect("a started rank has a process")
    }
}

/// The process that a started rank runs with or moves to.
fn current_end(rank: Rank, desk: &Desk) -> Vmid {
    let end = desk.standing(rank).current_end();
    end.expect("a started rank has a process")
}
