//! Where things stand in a picture: a column for each rank, a row for each
//! step. In a column the bars of the processes have the messages' tracks on
//! both sides, on the left of those from lower ranks.

use super::legend;
use super::story::{Process, Story, Track};
use super::texts::{self, BLANK};
use engine::Rank;

/// The height of the first row where nothing stands before it, and the
/// distance of rows.
const FIRST_ROW: i32 = 56;
const ROW: i32 = 24;

/// The gap between a mover and its arrival.
const SLOT_GAP: i32 = 26;

/// How far the first track is from the bars, and the others from it.
const FIRST_TRACK: i32 = 20;
const NEXT_TRACK: i32 = 14;

/// Where all of a story stands.
pub struct Layout {
    rows: usize,
    /// The height of row 0.
    top: i32,
    /// Where the texts of the margin stand, as `texts::margin` says.
    pub margin: [i32; 4],
    bar: i32,
    pub columns: Vec<Column>,
    /// Where each track of the story runs.
    pub tracks: Vec<i32>,
    below: i32,
}

/// The column of a rank: its edges, and those of its bars.
pub struct Column {
    pub rank: Rank,
    pub outer: (i32, i32),
    pub bars: (i32, i32),
}

impl Layout {
    pub fn of(story: &Story) -> Layout {
        let margin = texts::margin(story);
        let lanes = lanes(&story.tracks);
        let bar = texts::bar(story);
        let mut columns: Vec<Column> = Vec::new();
        let mut left = margin[3] + 4 * BLANK;
        for rank in story.ranks() {
            let column = Column::of(story, &lanes, rank, left, bar);
            left = column.outer.1 + texts::gap(story);
            columns.push(column);
        }
        let mut layout = Layout {
            rows: story.rows.len(),
            top: FIRST_ROW - if story.first == 1 { ROW } else { 0 },
            margin,
            bar,
            columns,
            tracks: Vec::new(),
            below: texts::below(story),
        };
        let tracks = story.tracks.iter().zip(lanes);
        layout.tracks = tracks
            .map(|(track, lane)| layout.track(track, lane))
            .collect();
        layout
    }

    fn track(&self, track: &Track, lane: usize) -> i32 {
        let (left, right) = self.column(track.receiver).bars;
        if track.sender < track.receiver {
            left - aside(lane)
        } else {
            right + aside(lane)
        }
    }

    /// The height of a row; of what is still open, the height below the last.
    pub fn y(&self, row: usize) -> i32 {
        self.top + ROW * row.min(self.rows + 1) as i32
    }

    /// The column of a rank that the story names.
    pub fn column(&self, rank: Rank) -> &Column {
        let mut columns = self.columns.iter();
        columns
            .find(|column| column.rank == rank)
            .expect("a named rank has a column")
    }

    /// Whether a rank has a column.
    pub fn has(&self, rank: Rank) -> bool {
        self.columns.iter().any(|column| column.rank == rank)
    }

    /// The edges of a process's bar.
    pub fn bar(&self, process: &Process) -> (i32, i32) {
        let aside = process.slot as i32 * (self.bar + SLOT_GAP);
        let left = self.column(process.rank).bars.0 + aside;
        (left, left + self.bar)
    }

    /// Where text stands beside the column of a rank, on the side of another:
    /// its class, and its end next to the column.
    pub fn beside(&self, rank: Rank, other: Rank) -> (&'static str, i32) {
        let (left, right) = self.column(rank).outer;
        if rank < other {
            ("begin", right + BLANK)
        } else {
            ("end", left - BLANK)
        }
    }

    pub fn legend_top(&self) -> i32 {
        self.y(self.rows + 1) + self.below + 3 * BLANK
    }

    pub fn width(&self) -> i32 {
        let last = self.columns.last();
        last.map_or(0, |column| column.outer.1 + 2 * BLANK)
            .max(legend::WIDTH)
    }

    pub fn height(&self) -> i32 {
        self.legend_top() + legend::HEIGHT
    }
}

impl Column {
    fn of(story: &Story, lanes: &[usize], rank: Rank, left: i32, bar: i32) -> Column {
        let room = |from_lower: bool| {
            let tracks =
                story.tracks.iter().zip(lanes).filter(|(track, _)| {
                    track.receiver == rank && (track.sender < rank) == from_lower
                });
            let outermost = tracks.map(|(_, lane)| *lane).max();
            outermost.map_or(0, |lane| aside(lane) + BLANK / 2)
        };
        let mut processes = story.processes.iter();
        let two = processes.any(|process| process.rank == rank && process.slot == 1);
        let inner_left = left + room(true);
        let inner_right = inner_left + if two { 2 * bar + SLOT_GAP } else { bar };
        Column {
            rank,
            outer: (left, inner_right + room(false)),
            bars: (inner_left, inner_right),
        }
    }
}

/// How far from the bars the track with this lane is.
fn aside(lane: usize) -> i32 {
    FIRST_TRACK + NEXT_TRACK * lane as i32
}

/// For each track the first lane on its side of its column that is free, so
/// that no two lie on each other.
fn lanes(tracks: &[Track]) -> Vec<usize> {
    let mut lanes: Vec<usize> = Vec::new();
    for (index, track) in tracks.iter().enumerate() {
        let is_taken = |lane: &usize| {
            let mut earlier = tracks[..index].iter().zip(&lanes);
            earlier.any(|(other, used)| {
                used == lane && side(other) == side(track) && other.to >= track.from()
            })
        };
        let free = (0..).find(|lane| !is_taken(lane));
        lanes.push(free.expect("only so many lanes are taken"));
    }
    lanes
}

/// The column of a track, and its side there.
fn side(track: &Track) -> (Rank, bool) {
    (track.receiver, track.sender < track.receiver)
}
