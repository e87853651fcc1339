//! The shapes of a picture as SVG text. A shape's looks are those of its
//! class; all coordinates are whole numbers.

use std::fmt::Write;

/// What every picture begins with, after its size.
const STYLE: &str = "\
text{fill:#222}
.faint{fill:#777}
.rank{font-weight:bold;font-size:13px;text-anchor:middle}
.end{text-anchor:end}
.middle{text-anchor:middle}
.taken{font-weight:bold;text-anchor:middle}
.drained{fill:#b3470a;text-anchor:middle}
.number{fill:#fff;font-weight:bold;text-anchor:middle}
.paper{fill:#fff}
.stripe{fill:#f5f5f5}
.running{fill:#e3edf9;stroke:#34495e}
.moving{fill:#fbd9bd}
.arriving{fill:#fff}
.outline{fill:none;stroke:#34495e}
.refusal{fill:#c62828}
.line{fill:none;stroke-width:2}
.thin{fill:none;stroke-width:1}
.dashed{stroke-dasharray:5 3}
.dotted{stroke-dasharray:1 3}
.mover{stroke:#d35400}
.current{stroke:#1f62b4}
.marker{stroke:#6a1b9a}
.call{stroke:#777}
.joined{stroke:#2e7d32}
.moved{stroke:#34495e}
.solid.mover{fill:#d35400}
.solid.current{fill:#1f62b4}
.solid.marker{fill:#6a1b9a}
.solid.call{fill:#777}
.solid.joined{fill:#2e7d32}
.solid.moved{fill:#34495e}
";

/// Which way an arrow points.
#[derive(Clone, Copy)]
pub enum Way {
    Left,
    Right,
    Down,
}

/// A picture in the making; what comes later lies above.
pub struct Svg {
    shapes: String,
}

impl Svg {
    pub fn new() -> Svg {
        Svg {
            shapes: String::new(),
        }
    }

    fn add(&mut self, shape: std::fmt::Arguments) {
        writeln!(self.shapes, "{shape}").expect("a string takes all text");
    }

    /// A straight line between two points.
    pub fn line(&mut self, class: &str, from: (i32, i32), to: (i32, i32)) {
        let ((x1, y1), (x2, y2)) = (from, to);
        self.add(format_args!(
            r#"<line class="{class}" x1="{x1}" y1="{y1}" x2="{x2}" y2="{y2}"/>"#
        ));
    }

    /// A level arrow.
    pub fn arrow(&mut self, class: &str, colour: &str, from: i32, to: i32, y: i32) {
        let (way, back) = if from <= to {
            (Way::Right, -5)
        } else {
            (Way::Left, 5)
        };
        self.line(&format!("{class} {colour}"), (from, y), (to + back, y));
        self.point(colour, (to, y), way);
    }

    /// The point of an arrow.
    pub fn point(&mut self, colour: &str, tip: (i32, i32), way: Way) {
        let (x, y) = tip;
        let sides = match way {
            Way::Left => "l7,-4 v8 z",
            Way::Right => "l-7,-4 v8 z",
            Way::Down => "l-4,-7 h8 z",
        };
        self.add(format_args!(
            r#"<path class="solid {colour}" d="M{x},{y} {sides}"/>"#
        ));
    }

    /// The sign of an end marker.
    pub fn diamond(&mut self, colour: &str, centre: (i32, i32)) {
        let (x, y) = (centre.0, centre.1 - 5);
        self.add(format_args!(
            r#"<path class="solid {colour}" d="M{x},{y} l5,5 l-5,5 l-5,-5 z"/>"#
        ));
    }

    /// The sign of a change.
    pub fn dot(&mut self, colour: &str, centre: (i32, i32)) {
        let (x, y) = centre;
        self.add(format_args!(
            r#"<circle class="solid {colour}" cx="{x}" cy="{y}" r="3"/>"#
        ));
    }

    /// A box with round corners, between two corners.
    pub fn field(&mut self, class: &str, from: (i32, i32), to: (i32, i32)) {
        let (x, y) = from;
        let (width, height) = (to.0 - x, to.1 - y);
        self.add(format_args!(
            r#"<rect class="{class}" x="{x}" y="{y}" width="{width}" height="{height}" rx="5"/>"#
        ));
    }

    /// Text on a line whose height this is.
    pub fn text(&mut self, class: &str, at: (i32, i32), content: &str) {
        let (x, y) = (at.0, at.1);
        let content = escaped(content);
        self.add(format_args!(
            r#"<text class="{class}" x="{x}" y="{y}">{content}</text>"#
        ));
    }

    /// Text that runs downwards.
    pub fn text_down(&mut self, at: (i32, i32), content: &str) {
        let (x, y) = at;
        let content = escaped(content);
        self.add(format_args!(
            r#"<text x="{x}" y="{y}" transform="rotate(90 {x} {y})">{content}</text>"#
        ));
    }

    /// The whole picture.
    pub fn finished(self, width: i32, height: i32, title: &str) -> String {
        let (shapes, title) = (self.shapes, escaped(title));
        format!(
            r#"<svg xmlns="http://www.w3.org/2000/svg" width="{width}" height="{height}" viewBox="0 0 {width} {height}" font-family="sans-serif" font-size="11">
<title>{title}</title>
<style>
{STYLE}</style>
<rect class="paper" width="{width}" height="{height}"/>
{shapes}</svg>
"#
        )
    }
}

/// Text as it stands in XML.
fn escaped(text: &str) -> String {
    let mut escaped = String::new();
    for letter in text.chars() {
        match letter {
            '&' => escaped.push_str("&amp;"),
            '<' => escaped.push_str("&lt;"),
            '>' => escaped.push_str("&gt;"),
            other => escaped.push(other),
        }
    }
    escaped
}
