//! What passes between two ranks without a message: calls and their routes,
//! and the closing of lines.

use super::layout::Layout;
use super::story::{Process, Story};
use super::svg::{Svg, Way};
use super::texts::{name, named_by};
use engine::{Rank, Step, Vmid};

/// A row's step between two ranks.
struct Act<'a> {
    story: &'a Story,
    layout: &'a Layout,
    row: usize,
    from: Rank,
    to: Rank,
}

pub fn draw(svg: &mut Svg, story: &Story, layout: &Layout) {
    for (row, told) in story.steps() {
        let act = |from, to| Act {
            story,
            layout,
            row,
            from,
            to,
        };
        let [v1, v2, v3] = told.values;
        match story.accepted(row) {
            Some(Step::Call { a, b }) => act(a, b).call(svg, named_by(v1, v2)),
            Some(Step::Route { a, b }) => match v1 {
                0 => act(a, b).join(svg, named_by(v2, v3)),
                1 => act(a, b).call(svg, named_by(v2, v3)),
                _ => act(a, b).close(svg),
            },
            Some(Step::Part { a, b }) => act(a, b).part(svg),
            _ => {}
        }
    }
}

impl Act<'_> {
    fn y(&self) -> i32 {
        self.layout.y(self.row)
    }

    /// From the one's bar to a process of the other, or to its column where
    /// there is no such process.
    fn ends(&self, to: Option<&Process>) -> (i32, i32) {
        let edges = |rank, process: Option<&Process>| match process {
            Some(process) => self.layout.bar(process),
            None => self.layout.column(rank).outer,
        };
        let from = edges(self.from, self.story.acting(self.from, self.row));
        let to = edges(self.to, to);
        if self.from < self.to {
            (from.1, to.0)
        } else {
            (from.0, to.1)
        }
    }

    fn label(&self, svg: &mut Svg, text: &str) {
        let (class, x) = self.layout.beside(self.from, self.to);
        svg.text(&format!("faint {class}"), (x, self.y() - 4), text);
    }

    fn call(&self, svg: &mut Svg, posted: Vmid) {
        self.label(svg, &format!("to {}", name(posted)));
        match self.story.living(posted, self.row) {
            None => self.lose(svg),
            process => {
                let (from, to) = self.ends(process);
                svg.arrow("thin dashed", "call", from, to, self.y());
            }
        }
    }

    /// A call to a rank that has ended.
    fn close(&self, svg: &mut Svg) {
        self.label(svg, "ended");
        self.lose(svg);
    }

    /// A call that meets no process.
    fn lose(&self, svg: &mut Svg) {
        let (from, column) = self.ends(None);
        let to = column + if from < column { -8 } else { 8 };
        let y = self.y();
        svg.line("thin dashed call", (from, y), (to, y));
        svg.line("line call", (to - 4, y - 4), (to + 4, y + 4));
        svg.line("line call", (to - 4, y + 4), (to + 4, y - 4));
    }

    fn join(&self, svg: &mut Svg, process: Vmid) {
        let (from, to) = self.ends(self.story.living(process, self.row));
        let y = self.y();
        let back = if from < to { Way::Left } else { Way::Right };
        svg.arrow("line", "joined", from, to, y);
        svg.point("joined", (from, y), back);
    }

    fn part(&self, svg: &mut Svg) {
        let (from, to) = self.ends(self.story.acting(self.to, self.row));
        let y = self.y();
        let (_, near) = self.layout.beside(self.from, self.to);
        let far = near + if from < to { 8 } else { -8 };
        for (end, gap) in [(from, near), (to, far)] {
            svg.line("line joined", (end, y), (gap, y));
            svg.line("line joined", (gap, y - 5), (gap, y + 5));
        }
    }
}
