//! What stands around the columns: the steps at the left, with a stripe behind
//! every second, and the ranks at the top.

use super::layout::{Column, Layout};
use super::story::{Story, OPEN};
use super::svg::Svg;
use super::texts::record;

/// The heights of the ranks' names and of what stands below them.
const RANKS: i32 = 20;
const HEADINGS: i32 = 36;

/// So many rows have the ranks' names also below them.
const MANY_ROWS: usize = 40;

pub fn draw(svg: &mut Svg, story: &Story, layout: &Layout) {
    draw_steps(svg, story, layout);
    draw_ranks(svg, layout, RANKS);
    if story.rows.len() >= MANY_ROWS {
        draw_ranks(svg, layout, layout.legend_top());
    }
    for column in &layout.columns {
        if let count @ 1.. = story.untouched[column.rank.index()] {
            let others = format!("{count} more unread");
            svg.text("faint middle", (centre(column), HEADINGS), &others);
        }
    }
}

fn draw_steps(svg: &mut Svg, story: &Story, layout: &Layout) {
    let [numbers, positions, records, _] = layout.margin;
    svg.text("faint end", (numbers, HEADINGS), "step");
    svg.text("faint end", (positions, HEADINGS), "at");
    svg.text("faint", (records, HEADINGS), "record");
    for (row, told) in story.steps() {
        let y = layout.y(row);
        if row % 2 == 1 {
            svg.field("stripe", (4, y - 12), (layout.width() - 4, y + 12));
        }
        let class = if told.number == 0 { "plain" } else { "faint" };
        let number = story.first + row as u64 - 1;
        svg.text("faint end", (numbers, y + 4), &number.to_string());
        svg.text("faint end", (positions, y + 4), &told.position.to_string());
        svg.text(class, (records, y + 4), &record(told));
    }
    if story.tracks.iter().any(|track| track.to == OPEN) {
        svg.text("faint", (records, layout.y(OPEN) + 16), "still unread");
    }
}

fn draw_ranks(svg: &mut Svg, layout: &Layout, y: i32) {
    for column in &layout.columns {
        let name = format!("rank {}", column.rank.0);
        svg.text("rank", (centre(column), y), &name);
    }
}

fn centre(column: &Column) -> i32 {
    (column.bars.0 + column.bars.1) / 2
}
