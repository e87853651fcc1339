//! Which steps are drawn: all of a short run, or a range.

use crate::drawing::{command, draw, end_of, example, examples, file_with};
use crate::xml;
use engine::proposals::{random_log, Mix};
use std::fs::{self, File};
use std::io::{Read, Write};
use std::process::Stdio;

/// An example of which every range can be drawn, and how many steps it has.
const MOVE: &str = "move-in-mid-pass";
const STEPS: usize = 23;

#[test]
fn a_wrong_range_gets_the_usage() {
    let file = &example(MOVE)[..];
    for (arguments, problem) in [
        (&[][..], "--picture needs a file"),
        (&["--text"], "unknown option '--text'"),
        (&[file, "1"], "'1' needs the last step"),
        (
            &[file, "0", "5"],
            "'0' is no step: steps are counted from 1",
        ),
        (
            &[file, "5", "x"],
            "'x' is no step: steps are counted from 1",
        ),
        (&[file, "", "5"], "'' is no step: steps are counted from 1"),
        (
            &[file, "+1", "5"],
            "'+1' is no step: steps are counted from 1",
        ),
        (
            &[file, "-1", "5"],
            "'-1' is no step: steps are counted from 1",
        ),
        (
            &[file, "1", "18446744073709551616"],
            "'18446744073709551616' is no step",
        ),
        (&[file, "5", "4"], "step 5 comes after step 4"),
        (&[file, "1", "2", "3"], "'3' is too much after '2'"),
    ] {
        let Some(end) = draw(arguments) else { return };
        assert_eq!((end.status, &end.printed[..]), (Some(2), ""), "{problem}");
        let (first, usage) = end.said.split_once('\n').unwrap();
        assert!(first.starts_with(problem), "{first}");
        assert!(
            usage.contains("\n./run --picture FILE FROM TO     draws"),
            "{usage}"
        );
    }
}

fn assert_told(arguments: &[&str], told: &str) {
    let Some(end) = draw(arguments) else { return };
    assert_eq!((end.status, &end.printed[..]), (Some(1), ""));
    assert_eq!(end.said, format!("{told}\n"));
}

const LIMIT: &str = "a picture has at most 120 steps; ./run --picture FILE FROM TO draws a part";

#[test]
fn what_is_too_large_is_told() {
    let file = file_with("limit.log", &random_log(3, Mix::BROAD, 120));
    let Some(end) = draw(&[&file]) else { return };
    end.picture();
    let file = file_with("above-limit.log", &random_log(3, Mix::BROAD, 121));
    assert_told(&[&file], &format!("the run is too long: {LIMIT}"));
    assert_told(
        &[&file, "1", "121"],
        &format!("steps 1 to 121 are too many: {LIMIT}"),
    );
    let all = u64::MAX.to_string();
    assert_told(
        &[&file, "1", &all],
        &format!("steps 1 to {all} are too many: {LIMIT}"),
    );
    draw(&[&file, "2", "121"]).unwrap().picture();
}

#[test]
fn what_is_not_there_is_told() {
    let file = example(MOVE);
    assert_told(
        &[&file, "24", "30"],
        "there is no step 24 to draw: the run has 23",
    );
    assert_told(&["/dev/null"], "there is no step 1 to draw: the run has 0");
    let Some(end) = draw(&["examples/none.txt"]) else {
        return;
    };
    assert_eq!((end.status, &end.printed[..]), (Some(1), ""));
    assert!(end.said.starts_with("examples/none.txt cannot be read: "));
}

#[test]
fn a_range_of_all_steps_is_the_whole() {
    for name in examples() {
        let file = example(&name);
        let Some(whole) = draw(&[&file]) else { return };
        assert_eq!(whole, draw(&[&file, "1", "120"]).unwrap(), "{name}");
    }
    let file = example(MOVE);
    let Some(whole) = draw(&[&file]) else { return };
    assert_eq!(whole, draw(&[&file, "1", &STEPS.to_string()]).unwrap());
}

#[test]
fn every_range_has_its_steps() {
    let file = example(MOVE);
    for from in 1..=STEPS {
        for to in from..=STEPS {
            let Some(end) = draw(&[&file, &from.to_string(), &to.to_string()]) else {
                return;
            };
            let picture = end.picture();
            assert_eq!(xml::check(&picture), Ok(()), "{from} to {to}");
            let title = format!("<title>steps {from} to {to} of a run</title>");
            assert!(picture.contains(&title), "{from} to {to}");
        }
    }
}

/// Messages that were sent before a range and are not touched in it are only
/// counted.
#[test]
fn what_a_range_does_not_touch_is_counted() {
    let Some(end) = draw(&[&example(MOVE), "10", "11"]) else {
        return;
    };
    let picture = end.picture();
    assert!(picture.contains(">2 more unread</text>"));
    assert!(picture.contains(">1002</text>") && !picture.contains(">1000</text>"));
}

#[test]
fn standard_input_is_drawn_like_a_file() {
    let file = example(MOVE);
    let text = fs::read_to_string(&file).unwrap();
    let log = file_with("input.log", &engine::text::encode(&text).unwrap());
    let Some(end) = draw(&[&file]) else { return };
    for input in [&file, &log] {
        let mut command = command(&["-"]).unwrap();
        command.stdin(File::open(input).unwrap());
        assert_eq!(end_of(&mut command), end, "{input}");
    }
}

/// The kind of a part is a newline in a text, and that of a land a tab.
#[test]
fn a_log_that_begins_like_a_text_is_a_log() {
    for (name, log) in [
        ("part.log", &[0x0A, 0x0A, b'1', 0x01, 0, 0][..]),
        ("land.log", &[0x09, b'1', 0x01, 0, 0]),
    ] {
        let Some(end) = draw(&[&file_with(name, log)]) else {
            return;
        };
        assert!(end.picture().contains(">start 0 0</text>"), "{name}");
    }
}

/// A range's picture is there before the input ends.
#[test]
fn an_open_input_is_drawn_once_the_range_is_there() {
    let text = fs::read_to_string(example(MOVE)).unwrap();
    let log = engine::text::encode(&text).unwrap();
    let Some(mut command) = command(&["-", "2", "5"]) else {
        return;
    };
    command.stdin(Stdio::piped()).stdout(Stdio::piped());
    let mut child = command.spawn().unwrap();
    let mut input = child.stdin.take().unwrap();
    input.write_all(&log).unwrap();
    let mut picture = String::new();
    child
        .stdout
        .take()
        .unwrap()
        .read_to_string(&mut picture)
        .unwrap();
    assert!(picture.ends_with("</svg>\n") && child.wait().unwrap().success());
    drop(input);
}
