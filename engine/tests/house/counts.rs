//! A pair's count is widened at one place. Paper 02, Change 3: "it is to be
//! counted, kept and handed out there in 16 bits", and the layers above the
//! lower part have one function that makes it wider.

use crate::code::{plain_part, plain_words};
use crate::tree::{sources, Source};

/// What the crates of the lower part begin with, and what they call the type
/// of a count.
const LOWER: &str = "crates/transit";
const COUNT: &str = "Count";

/// What of a lower part hands out a count: functions with such a result, and
/// public fields.
fn counting(lower: &[Source]) -> Vec<String> {
    let counting = |source: &Source| {
        let plain = plain_part(&source.text);
        let words = plain_words(&plain);
        let named = (1..words.len()).filter(|&at| hands_out(&words, at));
        let names: Vec<String> = named.map(|at| words[at].to_owned()).collect();
        names
    };
    lower.iter().flat_map(counting).collect()
}

fn hands_out(words: &[&str], at: usize) -> bool {
    match words[at - 1] {
        "fn" => {
            let ends = |word: &&str| matches!(*word, "requires" | "ensures" | "{");
            let signature = words[at..].split(ends).next();
            signature.is_some_and(|signature| signature.ends_with(&["-", ">", COUNT]))
        }
        "pub" => words[at + 1..].starts_with(&[":", COUNT]),
        _ => false,
    }
}

/// The counts of a source above it that are made another number, by `as` or by `from`.
fn widened(source: &Source, counting: &[String]) -> Vec<String> {
    let plain = plain_part(&source.text);
    let words = plain_words(&plain);
    let is_counting = |word: &str| counting.iter().any(|name| name == word);
    let bound = |at: &usize| match words[*at + 1..] {
        [":", COUNT, ..] => true,
        ["=", function, "(", ..] => is_counting(function),
        _ => false,
    };
    let bound: Vec<&str> = (0..words.len()).filter(bound).map(|at| words[at]).collect();
    let subjects = (1..words.len()).filter_map(|at| match words[at..] {
        ["as", ..] => Some(subject(&words[..at])),
        ["from", "(", ..] => Some(subject(argument(&words[at + 2..]))),
        _ => None,
    });
    let counts = subjects.filter(|subject| bound.contains(subject) || is_counting(subject));
    counts
        .map(|count| format!("{}: '{count}'", source.path))
        .collect()
}

/// What an expression names that ends with these words: a name, or the function of a call.
fn subject<'a>(words: &[&'a str]) -> &'a str {
    match words {
        [before @ .., ")"] => called(before),
        [.., name] => name,
        [] => "",
    }
}

/// The words of a call's argument, from those behind its first bracket.
fn argument<'a, 'b>(words: &'b [&'a str]) -> &'b [&'a str] {
    let mut open = 1;
    for (at, word) in words.iter().enumerate() {
        match *word {
            "(" => open += 1,
            ")" => open -= 1,
            _ => {}
        }
        if open == 0 {
            return &words[..at];
        }
    }
    words
}

/// The function of a call, from the words before its last bracket.
fn called<'a>(words: &[&'a str]) -> &'a str {
    let mut open = 1;
    for at in (1..words.len()).rev() {
        match words[at] {
            ")" => open += 1,
            "(" => open -= 1,
            _ => {}
        }
        if open == 0 {
            return words[at - 1];
        }
    }
    ""
}

#[test]
fn a_count_is_widened_at_one_place() {
    let (lower, above): (Vec<Source>, Vec<Source>) = sources(&[".rt"])
        .into_iter()
        .partition(|source| source.path.starts_with(LOWER));
    let counting = counting(&lower);
    let found: Vec<String> = above
        .iter()
        .flat_map(|source| widened(source, &counting))
        .collect();
    assert_eq!(found, ["crates/answer/src/lib.rt: 'n'"]);
}

#[test]
fn widened_counts_are_found() {
    let lower = Source::of(
        "transit.rt",
        "struct Left { pub left: Count, pub value: u32 }\n\
        pub fn count(slots: &Slots) -> Count\n    ensures { result ≡ 0 }\n{ 0 }\n\
        fn more(n: Count) -> u32 { 1 }",
    );
    let counting = counting(&[lower]);
    assert_eq!(counting, ["left", "count"]);
    let above = Source::of(
        "x.rt",
        "fn f(n: Count, m: u8) {\n    let k = count(slots);\n    let v = more(k);\n    \
        g(k as u32, m as u32, v as u64, removed.left as u32, removed.value as u64);\n    \
        h(count(side(slots)) as u64, more(k) as u64, n as usize);\n    \
        i(u32::from(k), u64::from(count(slots)), u64::from(m), u32::from(removed.left))\n}",
    );
    let found = [
        "x.rt: 'k'",
        "x.rt: 'left'",
        "x.rt: 'count'",
        "x.rt: 'n'",
        "x.rt: 'k'",
        "x.rt: 'count'",
        "x.rt: 'left'",
    ];
    assert_eq!(widened(&above, &counting), found);
}
