//! A run drawn as a space-time diagram: ranks side by side, steps downwards.
//! The proved program's lines are drawn; where its messages are between the
//! steps is told by the second engine, which is held to those lines.

mod acts;
mod bars;
mod beside;
mod labels;
mod layout;
mod legend;
mod margin;
mod recorder;
mod story;
mod svg;
mod texts;
mod tracks;
mod unread;

use crate::failure::Failure;
use crate::running::Running;
use crate::steps::{Line, Lines};
use beside::Beside;
use engine::standard::plain_file;
use layout::Layout;
use recorder::Recorder;
use std::io::{self, BufRead, Read, Write};
use story::Story;
use svg::Svg;

/// The most steps of a picture.
const MOST_STEPS: u64 = 120;

/// What was read of a run.
struct Reading {
    steps: u64,
    /// What is to be drawn; none where the run has no such steps.
    story: Option<Story>,
    /// Whether the run was read to its end.
    whole: bool,
}

/// Draws the steps of a range, both ends counted from 1, or of a whole run.
pub fn draw(mut running: Running, range: Option<(u64, u64)>) -> Result<(), Failure> {
    let (from, to) = range.unwrap_or((1, MOST_STEPS));
    if to - from >= MOST_STEPS {
        return Err(too_large(&format!("steps {from} to {to} are too many")));
    }
    let mut lines = Lines::new(&mut running.log, &mut running.printed);
    let Some(reading) = read(&mut lines, from, to, range.is_none())? else {
        running.end()?;
        return Err(Failure::Told(NO_END.to_owned()));
    };
    // Behind a range the program is left to itself, without a reader.
    if reading.whole {
        running.end()?;
    }
    match reading.story {
        Some(story) => print(&story),
        None => Err(nothing_there(from, reading.steps)),
    }
}

/// Reads a run up to its end or, where only a range is asked for, to the
/// range's; none where the program stops before.
fn read<L: Read, P: BufRead>(
    lines: &mut Lines<L, P>,
    from: u64,
    to: u64,
    all: bool,
) -> Result<Option<Reading>, Failure> {
    let mut beside = Beside::fresh();
    let mut recorder: Option<Recorder> = None;
    let mut steps = 0;
    while let Some(line) = lines.next_line()? {
        let whole = line == Line::End;
        match line {
            Line::Step(_) if steps == to => return Err(too_large("the run is too long")),
            Line::Step(told) => {
                steps += 1;
                if steps == from {
                    recorder = Some(Recorder::new(from, beside.desk()));
                }
                beside.step(&told)?;
                if let Some(recorder) = &mut recorder {
                    recorder.step(told, beside.desk());
                }
            }
            Line::Pair(pair) => beside.pair(&pair)?,
            Line::End => beside.end()?,
        }
        if whole || steps == to && !all {
            let story = recorder.map(Recorder::story);
            return Ok(Some(Reading {
                steps,
                story,
                whole,
            }));
        }
    }
    Ok(None)
}

/// Puts a story on standard output.
fn print(story: &Story) -> Result<(), Failure> {
    let picture = picture_of(story);
    Ok(plain_file(io::stdout())?.write_all(picture.as_bytes())?)
}

/// The picture of a story; what comes later lies above.
fn picture_of(story: &Story) -> String {
    let layout = Layout::of(story);
    let mut svg = Svg::new();
    margin::draw(&mut svg, story, &layout);
    acts::draw(&mut svg, story, &layout);
    tracks::draw_across(&mut svg, story, &layout);
    bars::draw(&mut svg, story, &layout);
    tracks::draw_down(&mut svg, story, &layout);
    labels::draw(&mut svg, story, &layout);
    legend::draw(&mut svg, layout.legend_top());
    let last = story.first + story.rows.len() as u64 - 1;
    let title = format!("steps {} to {last} of a run", story.first);
    svg.finished(layout.width(), layout.height(), &title)
}

fn too_large(problem: &str) -> Failure {
    Failure::Told(format!(
        "{problem}: a picture has at most {MOST_STEPS} steps; ./run --picture FILE FROM TO draws a part"
    ))
}

/// What is said where the program stops too soon and says nothing itself.
const NO_END: &str = "nothing is drawn: the program stopped before the run's end";

fn nothing_there(from: u64, steps: u64) -> Failure {
    Failure::Told(format!(
        "there is no step {from} to draw: the run has {steps}"
    ))
}
