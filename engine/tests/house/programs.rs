//! A program's loop decides nothing: it reads, calls and writes, and what it
//! does is in the contracts of a library.

use crate::code::plain_part;
use crate::tree::Source;

/// The programs whose `main` is held to it.
const PROGRAMS: [&str; 2] = ["crates/made_up/src/main.rt", "crates/replay/src/main.rt"];

/// What stands in no program: a test, a comparison, a sum, a truth of its own,
/// a loop with a condition, a way out by `?`.
const DECISIONS: [&str; 19] = [
    "if ", "else", "while ", "for ", "break", "continue", "true", "false", "==", "<", ">", "+",
    "-", "*", "/", "%", "!", "|", "?",
];

#[test]
fn programs_decide_nothing() {
    let found: Vec<String> = PROGRAMS
        .iter()
        .flat_map(|path| decisions(&Source::read(path)))
        .collect();
    assert!(found.is_empty(), "{}", found.join("\n"));
}

/// Each line of code that decides something or has a number of its own, and in
/// each function a `return`, a `match` and a `loop` but the first.
fn decisions(source: &Source) -> Vec<String> {
    let mut found = Vec::new();
    let code = plain_part(&source.text);
    for (line, content) in (1..).zip(code.lines()) {
        let content = without_arrays(&content.replace("=>", "").replace("->", ""));
        for decision in DECISIONS.iter().filter(|d| content.contains(*d)) {
            found.push(source.at(line, format!("has `{}`", decision.trim_end())));
        }
        if has_number(&content) {
            found.push(source.at(line, "has a number"));
        }
    }
    for function in code.split("fn ").skip(1) {
        let name = function.split('(').next().unwrap_or_default();
        for once in ["return", "match ", "loop "] {
            let count = function.matches(once).count();
            if count > 1 {
                let once = once.trim_end();
                found.push(source.at(1, format!("{name} has `{once}` {count} times")));
            }
        }
    }
    found
}

/// A line without the zeros that an array begins with: `[0u16; LENGTH]`.
fn without_arrays(content: &str) -> String {
    let mut content = content.to_owned();
    for zero in ["[0u8;", "[0u16;", "[0u32;", "[0u64;"] {
        content = content.replace(zero, "[");
    }
    content
}

/// A digit that is no part of a name stands there.
fn has_number(content: &str) -> bool {
    let letters: Vec<char> = content.chars().collect();
    let in_name =
        |at: usize| at > 0 && (letters[at - 1].is_alphanumeric() || letters[at - 1] == '_');
    (0..letters.len()).any(|at| letters[at].is_ascii_digit() && !in_name(at))
}

#[cfg(test)]
mod tests {
    use super::{decisions, Source};

    fn found(line: &str) -> usize {
        decisions(&Source::of("p", &format!("fn main() {{\n{line}\n}}"))).len()
    }

    #[test]
    fn a_stop_by_itself_is_found() {
        assert_eq!(found("if FARTHEST < base { return; }"), 2);
        assert_eq!(found("stage = take_in(stage, 0, lent);"), 1);
        assert_eq!(found("let got = got - got;"), 1);
        assert_eq!(found("let wrote = true;"), 1);
        assert_eq!(found("while more(stage) {"), 1);
        assert_eq!(found("return; } return;"), 1);
        assert_eq!(found("piece = next_piece(piece, buffer)?;"), 1);
        assert_eq!(found("let mut slots = [0u16; SLOTS_LENGTH];"), 0);
        assert_eq!(found("Then::Turn => {"), 0);
    }
}
