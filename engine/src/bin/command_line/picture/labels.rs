//! What is written on the columns: values where they are sent and read, what
//! looks see, and the numbers of refusals.

use super::layout::Layout;
use super::story::Story;
use super::svg::Svg;
use engine::{Rank, Step};

pub fn draw(svg: &mut Svg, story: &Story, layout: &Layout) {
    for (row, told) in story.steps() {
        if told.number != 0 {
            draw_refusal(svg, story, layout, row);
            continue;
        }
        let y = layout.y(row);
        let [v1, v2, _] = told.values;
        let mut on_bar = |class: &str, rank: Rank, text: String| {
            svg.text(class, (centre(story, layout, rank, row), y + 4), &text);
        };
        match told.step {
            Some(Step::Take { b, .. }) => on_bar("taken", b, v1.to_string()),
            Some(Step::Drain { r, .. }) if v1 == 0 => on_bar("drained", r, v2.to_string()),
            Some(Step::Look { r }) => on_bar("faint middle", r, format!("sees {v1}")),
            Some(Step::Send { a, b, value }) => {
                let (class, x) = layout.beside(a, b);
                svg.text(class, (x, y - 4), &value.to_string());
            }
            _ => {}
        }
    }
}

/// The middle of a rank's bar in a row; of a mover's where there is one.
fn centre(story: &Story, layout: &Layout, rank: Rank, row: usize) -> i32 {
    let bars = layout.column(rank).bars;
    let (left, right) = story
        .mover(rank, row)
        .map_or(bars, |process| layout.bar(process));
    (left + right) / 2
}

/// The number of a refusal, in the margin and on the first rank's bar.
fn draw_refusal(svg: &mut Svg, story: &Story, layout: &Layout, row: usize) {
    let told = &story.rows[row - 1];
    let first = told.step.and_then(|step| step.ranks().next());
    let first = first.filter(|&rank| layout.has(rank));
    let on_bar = first.map(|rank| centre(story, layout, rank, row));
    for x in [Some(layout.margin[3]), on_bar].into_iter().flatten() {
        draw_number(svg, (x, layout.y(row)), told.number);
    }
}

/// A refusal's number in its field, with this centre.
pub fn draw_number(svg: &mut Svg, centre: (i32, i32), number: u8) {
    let (x, y) = centre;
    svg.field("refusal", (x - 11, y - 8), (x + 11, y + 8));
    svg.text("number", (x, y + 4), &number.to_string());
}
