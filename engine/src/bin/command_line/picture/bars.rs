//! The processes: a bar for each, and the arrows from a mover to its arrival.

use super::layout::Layout;
use super::story::{Process, Story, OPEN};
use super::svg::Svg;
use super::texts::name;
use engine::Step;

/// How far a bar goes beyond its first and its last row.
const BEYOND: i32 = 9;

pub fn draw(svg: &mut Svg, story: &Story, layout: &Layout) {
    let drawn = |process: &&Process| layout.has(process.rank);
    for process in story.processes.iter().filter(drawn) {
        draw_bar(svg, process, layout);
    }
    for (row, _) in story.steps() {
        if let Some(Step::Move { r, .. } | Step::Land { r }) = story.accepted(row) {
            let of_rank = || story.processes.iter().filter(|process| process.rank == r);
            let mover = of_rank().find(|process| process.moves == row || process.to == row);
            let arrival = of_rank().find(|process| process.from == row || process.runs == row);
            if let (Some(mover), Some(arrival)) = (mover, arrival) {
                draw_handover(svg, layout, mover, arrival, layout.y(row));
            }
        }
    }
}

fn draw_bar(svg: &mut Svg, process: &Process, layout: &Layout) {
    let (left, right) = layout.bar(process);
    let top = layout.y(process.from) - BEYOND;
    let bottom = match process.to {
        OPEN => layout.y(OPEN) - BEYOND,
        row => layout.y(row) + BEYOND,
    };
    svg.field("running", (left, top), (right, bottom));
    if process.runs > process.from {
        let until = layout.y(process.runs).min(bottom);
        svg.field("arriving", (left, top), (right, until));
    }
    if process.moves != OPEN {
        let since = match process.moves {
            0 => top,
            row => layout.y(row),
        };
        svg.field("moving", (left, since), (right, bottom));
    }
    svg.field("outline", (left, top), (right, bottom));
    let middle = (left + right) / 2;
    svg.text("middle", (middle, top + BEYOND + 4), &name(process.vmid));
    if process.ended {
        svg.text("faint middle", (middle, bottom - BEYOND + 4), "ended");
    }
}

/// The arrow from a mover to its arrival.
fn draw_handover(svg: &mut Svg, layout: &Layout, mover: &Process, arrival: &Process, y: i32) {
    let (from, to) = (layout.bar(mover), layout.bar(arrival));
    if mover.slot < arrival.slot {
        svg.arrow("line", "moved", from.1, to.0, y);
    } else {
        svg.arrow("line", "moved", from.0, to.1, y);
    }
}
