//! Messages and end markers: across from the sender, down beside the receiver
//! through the places, and into the bar of the process that reads them.

use super::layout::Layout;
use super::story::{Story, Track, OPEN};
use super::svg::{Svg, Way};
use engine::{Place, Rank, Step};

/// How a stay is drawn: the classes of its line, and its colour.
pub fn looks(place: Place) -> (&'static str, &'static str) {
    match place {
        Place::MoverList => ("line", "mover"),
        Place::MoverLane => ("line dashed", "mover"),
        Place::CurrentList => ("line", "current"),
        Place::CurrentLane => ("line dashed", "current"),
    }
}

/// How an end marker is drawn.
pub const MARKER: (&str, &str) = ("line dotted", "marker");

/// How far the sign of an end marker goes to each side.
const SIGN: i32 = 5;

/// The colour of a track at a place.
fn colour(track: &Track, place: Place) -> &'static str {
    match track.value {
        Some(_) => looks(place).1,
        None => MARKER.1,
    }
}

/// What goes across: sends, drains and takes. Bars lie above it.
pub fn draw_across(svg: &mut Svg, story: &Story, layout: &Layout) {
    for (track, &x) in story.tracks.iter().zip(&layout.tracks) {
        for &(row, place) in &track.stays {
            let colour = colour(track, place);
            match story.accepted(row) {
                Some(Step::Drain { .. }) => read(svg, story, layout, (track, row), x, colour),
                Some(step) if row == track.from() && is_sent_by(step, track.sender) => {
                    send(svg, story, layout, track, x, colour);
                }
                _ => {}
            }
        }
        if track.to != OPEN {
            let colour = colour(track, track.last_place());
            read(svg, story, layout, (track, track.to), x, colour);
        }
    }
}

/// Whether a step puts something of this rank on a lane. The end marker of a
/// mover that has moved before has no step of its own.
fn is_sent_by(step: Step, rank: Rank) -> bool {
    match step {
        Step::Send { a, .. } => a == rank,
        Step::Heed { b, .. } => b == rank,
        Step::Move { r, .. } => r == rank,
        _ => false,
    }
}

/// An arrow from the sender's bar to a track.
fn send(svg: &mut Svg, story: &Story, layout: &Layout, track: &Track, x: i32, colour: &str) {
    if let Some(process) = story.acting(track.sender, track.from()) {
        let edge = nearer(layout.bar(process), x);
        let aside = if track.value.is_some() { 0 } else { SIGN };
        let tip = if edge < x { x - aside } else { x + aside };
        svg.arrow("thin", colour, edge, tip, layout.y(track.from()));
    }
}

/// An arrow from a track into the bar of the process that reads in a row.
fn read(svg: &mut Svg, story: &Story, layout: &Layout, at: (&Track, usize), x: i32, colour: &str) {
    let (track, row) = at;
    if let Some(process) = story.mover(track.receiver, row) {
        let edge = nearer(layout.bar(process), x);
        svg.arrow("thin", colour, x, edge, layout.y(row));
    }
}

/// Which edge of a bar is nearer.
fn nearer(edges: (i32, i32), x: i32) -> i32 {
    if x < edges.0 {
        edges.0
    } else {
        edges.1
    }
}

/// What goes down: the stays at places, with a dot where the place changes.
pub fn draw_down(svg: &mut Svg, story: &Story, layout: &Layout) {
    for (track, &x) in story.tracks.iter().zip(&layout.tracks) {
        let ends = track.stays.iter().skip(1).map(|stay| stay.0);
        for (&(row, place), end) in track.stays.iter().zip(ends.chain([track.to])) {
            let (from, to) = (layout.y(row), layout.y(end));
            let (class, colour) = track.value.map_or(MARKER, |_| looks(place));
            svg.line(&format!("{class} {colour}"), (x, from), (x, to));
            if row != track.from() {
                svg.dot(colour, (x, from));
            }
        }
        if track.value.is_none() {
            draw_signs(svg, layout, track, x);
        }
        if track.to == OPEN {
            draw_unread(svg, layout, track, x);
        }
    }
}

/// The sign of an end marker where it comes onto the lane and where it is read.
fn draw_signs(svg: &mut Svg, layout: &Layout, track: &Track, x: i32) {
    for row in [track.from(), track.to] {
        if row != 0 && row != OPEN {
            svg.diamond(MARKER.1, (x, layout.y(row)));
        }
    }
}

/// What goes on below the last row.
fn draw_unread(svg: &mut Svg, layout: &Layout, track: &Track, x: i32) {
    let y = layout.y(OPEN);
    svg.point(colour(track, track.last_place()), (x, y + 6), Way::Down);
    if let Some(value) = track.value {
        svg.text_down((x - 4, y + 10), &value.to_string());
    }
}
