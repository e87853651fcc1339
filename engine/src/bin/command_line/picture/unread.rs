//! The unread messages and the end markers, followed along the steps: each has
//! a track, which goes on behind its end.

use super::story::{Track, OPEN};
use engine::{Await, Desk, Place, Rank, Step};
use std::collections::VecDeque;

/// What is unread, and the tracks of all that was.
pub struct Unread {
    tracks: Vec<Track>,
    /// For each sender and receiver, the messages in order of sending.
    messages: Vec<VecDeque<usize>>,
    /// For each sender and receiver, the end marker.
    markers: Vec<Option<usize>>,
}

/// The ordered pairs of ranks, sender first.
fn pairs() -> impl Iterator<Item = (Rank, Rank)> {
    Rank::all().flat_map(|sender| Rank::all().map(move |receiver| (sender, receiver)))
}

fn index(sender: Rank, receiver: Rank) -> usize {
    sender.index() * Rank::COUNT + receiver.index()
}

impl Unread {
    /// What is unread before the first row.
    pub fn of(desk: &Desk) -> Unread {
        let mut unread = Unread {
            tracks: Vec::new(),
            messages: vec![VecDeque::new(); Rank::COUNT * Rank::COUNT],
            markers: vec![None; Rank::COUNT * Rank::COUNT],
        };
        for (sender, receiver) in pairs() {
            for (content, _) in desk.mail().unread_of_pair(sender, receiver) {
                unread.add_message(sender, receiver, content.value, 0);
            }
        }
        unread.note_places(0, desk);
        unread.note_markers(0, desk);
        unread
    }

    /// What an accepted step changes, with the desk after it.
    pub fn note(&mut self, step: Step, row: usize, desk: &Desk) {
        match step {
            Step::Send { a, b, value } => self.add_message(a, b, value, row),
            Step::Take { b, a } => {
                let first = self.messages[index(a, b)].pop_front();
                self.end(first.expect("an accepted take takes a message"), row);
            }
            Step::Drain { r, s } => self.touch_first_on_lane(s, r),
            _ => {}
        }
        self.note_places(row, desk);
        self.note_markers(row, desk);
    }

    /// The tracks of all that was unread, in the order of their first rows.
    pub fn tracks(self) -> Vec<Track> {
        self.tracks
    }

    fn add_message(&mut self, sender: Rank, receiver: Rank, value: u32, row: usize) {
        let track = self.add(sender, receiver, Some(value), row);
        self.messages[index(sender, receiver)].push_back(track);
    }

    fn add(&mut self, sender: Rank, receiver: Rank, value: Option<u32>, row: usize) -> usize {
        self.tracks.push(Track {
            sender,
            receiver,
            value,
            stays: Vec::new(),
            to: OPEN,
            touched: row > 0,
        });
        self.tracks.len() - 1
    }

    fn end(&mut self, track: usize, row: usize) {
        let track = &mut self.tracks[track];
        (track.to, track.touched) = (row, true);
    }

    /// The message that a drain reads, where it does not read the end marker.
    fn touch_first_on_lane(&mut self, sender: Rank, receiver: Rank) {
        let mut messages = self.messages[index(sender, receiver)].iter();
        let on_lane = |&&track: &&usize| self.tracks[track].last_place() == Place::MoverLane;
        if let Some(&track) = messages.find(on_lane) {
            self.tracks[track].touched = true;
        }
    }

    /// Notes where each message is, where that has changed.
    fn note_places(&mut self, row: usize, desk: &Desk) {
        for (sender, receiver) in pairs() {
            let messages = &self.messages[index(sender, receiver)];
            let places = desk.mail().unread_of_pair(sender, receiver);
            for (&track, (_, place)) in messages.iter().zip(places) {
                let stays = &mut self.tracks[track].stays;
                if stays.last().is_none_or(|(_, last)| *last != place) {
                    stays.push((row, place));
                }
            }
        }
    }

    /// Notes the end markers that have come or gone.
    fn note_markers(&mut self, row: usize, desk: &Desk) {
        for (sender, receiver) in pairs() {
            let pair = index(sender, receiver);
            let marked = desk.awaits(receiver, sender) == Await::Marked;
            match self.markers[pair] {
                Some(track) if !marked => {
                    self.markers[pair] = None;
                    self.end(track, row);
                }
                None if marked => {
                    let track = self.add(sender, receiver, None, row);
                    self.tracks[track].stays.push((row, Place::MoverLane));
                    self.markers[pair] = Some(track);
                }
                _ => {}
            }
        }
    }
}
