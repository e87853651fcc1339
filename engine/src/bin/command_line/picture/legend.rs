//! The legend below a picture.

use super::labels::draw_number;
use super::svg::{Svg, Way};
use super::tracks::{looks, MARKER};
use engine::Place;

/// The size of the legend.
pub const WIDTH: i32 = 660;
pub const HEIGHT: i32 = TEXTS.len() as i32 * LINE + 30;

/// The distance of its lines, and where its two sides begin.
const LINE: i32 = 20;
const LEFT: i32 = 16;
const RIGHT: i32 = 340;

/// The width of a sample, and where its text begins.
const SAMPLE: i32 = 40;
const TEXT: i32 = 52;

/// The texts of the two sides, line by line.
const TEXTS: [[&str; 2]; 7] = [
    [
        "a process: host 0, number 1 there",
        "a message on the lane to the mover",
    ],
    [
        "a mover, from its move to its landing",
        "in the mover's list",
    ],
    [
        "an arrival, until it lands",
        "on the lane to the current end",
    ],
    [
        "a call, or a call led on, to a process",
        "in the list of the current end",
    ],
    [
        "a route that connects: the line stands",
        "an end marker on the lane to the mover",
    ],
    [
        "a part: the line is closed",
        "a value that a mover drains, and one taken",
    ],
    ["refused, with its number", "still unread"],
];

pub fn draw(svg: &mut Svg, top: i32) {
    let line = |index: usize| top + 20 + index as i32 * LINE;
    for (index, [left, right]) in TEXTS.iter().enumerate() {
        svg.text("plain", (LEFT + TEXT, line(index) + 4), left);
        svg.text("plain", (RIGHT + TEXT, line(index) + 4), right);
    }
    for (index, class) in ["running", "moving", "arriving"].into_iter().enumerate() {
        let (from, to) = ((LEFT, line(index) - 7), (LEFT + SAMPLE, line(index) + 7));
        svg.field(class, from, to);
        svg.field("outline", from, to);
    }
    svg.text("middle", (LEFT + SAMPLE / 2, line(0) + 4), "0.1");
    draw_acts(svg, [line(3), line(4), line(5)]);
    draw_number(svg, (LEFT + SAMPLE / 2, line(6)), 10);
    let places = [
        Place::MoverLane,
        Place::MoverList,
        Place::CurrentLane,
        Place::CurrentList,
    ];
    let lines = places.into_iter().map(looks).chain([MARKER]);
    for (index, (class, colour)) in lines.enumerate() {
        let y = line(index);
        svg.line(
            &format!("{class} {colour}"),
            (RIGHT, y),
            (RIGHT + SAMPLE, y),
        );
    }
    svg.diamond(MARKER.1, (RIGHT + SAMPLE / 2, line(4)));
    svg.text("drained", (RIGHT + 8, line(5) + 4), "70");
    svg.text("taken", (RIGHT + 30, line(5) + 4), "70");
    svg.point("current", (RIGHT + SAMPLE / 2, line(6) + 4), Way::Down);
}

fn draw_acts(svg: &mut Svg, [call, join, part]: [i32; 3]) {
    let (left, right, middle) = (LEFT, LEFT + SAMPLE, LEFT + SAMPLE / 2);
    svg.arrow("thin dashed", "call", left, right, call);
    svg.arrow("line", "joined", left, right, join);
    svg.point("joined", (left, join), Way::Left);
    for (end, gap) in [(left, middle - 4), (right, middle + 4)] {
        svg.line("line joined", (end, part), (gap, part));
        svg.line("line joined", (gap, part - 5), (gap, part + 5));
    }
}
