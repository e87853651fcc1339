//! The words of an Antt text, and which of them stand for a name.

use std::collections::HashSet;

/// A word and its line, counted from 1.
#[derive(Clone, Copy, Debug, PartialEq)]
pub struct Word<'a> {
    pub line: usize,
    pub text: &'a str,
}

/// What is a word by itself, whatever stands beside it.
const BRACKETS: &str = "(){},;";

/// The words of a text, without comments and quoted text.
pub fn words(text: &str) -> Vec<Word<'_>> {
    let mut words = Vec::new();
    for (line, content) in (1..).zip(text.lines()) {
        words.extend(words_of_line(content).map(|text| Word { line, text }));
    }
    words
}

fn words_of_line(content: &str) -> impl Iterator<Item = &str> {
    let mut rest = content.trim_start();
    let next = move || {
        if rest.is_empty() || rest.starts_with("--") {
            return None;
        }
        let (word, after) = rest.split_at(word_length(rest));
        rest = after.trim_start();
        Some(word)
    };
    std::iter::from_fn(next).filter(|word| !word.starts_with('"'))
}

fn word_length(rest: &str) -> usize {
    let ends = |c: char| c.is_whitespace() || BRACKETS.contains(c);
    match rest.chars().next() {
        Some('"') => rest[1..].find('"').map_or(rest.len(), |at| at + 2),
        Some(first) if BRACKETS.contains(first) => first.len_utf8(),
        _ => rest.find(ends).unwrap_or(rest.len()),
    }
}

/// The words that stand for what is declared elsewhere: not a projection, and
/// not a name where it is declared, bound or assigned.
pub fn used<'a>(words: &[Word<'a>]) -> Vec<Word<'a>> {
    let bound = bound(words);
    let stands = |at: &usize| !bound.contains(at) && !is_projection(words[*at].text);
    let places = (0..words.len()).filter(stands);
    places.map(|at| words[at]).collect()
}

/// A name before the first dot of a path: `Kind` of `Kind.find`.
pub fn head(word: &str) -> &str {
    word.split('.').next().unwrap_or(word)
}

/// What stands for an argument in the name of an operator.
const GAP: char = '◌';

/// What stands in a text where a name is used: `if` and `then` for
/// `if◌then◌`, and any other name itself.
pub fn signs(name: &str) -> Vec<&str> {
    if name.contains(GAP) {
        return name.split(GAP).filter(|part| !part.is_empty()).collect();
    }
    vec![name]
}

fn is_projection(word: &str) -> bool {
    word.starts_with('.')
}

fn is_name(word: &str) -> bool {
    word.starts_with(|c: char| c.is_alphabetic() || c == '_')
}

/// The places of the words that are bound, declared or assigned.
fn bound(words: &[Word]) -> HashSet<usize> {
    let mut bound = HashSet::new();
    for (at, word) in words.iter().enumerate() {
        match word.text {
            ":" => bound.extend(names_before(words, at)),
            "λ" => bound.extend(parameters(words, at)),
            "=" if is_assigned(words, at) => bound.extend([at - 1]),
            _ => {}
        }
    }
    bound
}

/// The names on the same line before a colon: `a b` of `(a b : Rank)`.
fn names_before<'a>(words: &'a [Word], colon: usize) -> impl Iterator<Item = usize> + 'a {
    let line = words[colon].line;
    let same = move |at: &usize| words[*at].line == line && is_name(words[*at].text);
    (0..colon).rev().take_while(same)
}

/// The parameters of a function that is written in place: `a b` of `λ a b. x`.
/// A parameter with a type is in brackets, and has a colon.
fn parameters(words: &[Word], lambda: usize) -> Vec<usize> {
    let mut found = Vec::new();
    let mut depth = 0;
    for (at, word) in words.iter().enumerate().skip(lambda + 1) {
        match word.text {
            "(" | "{" => depth += 1,
            ")" | "}" => depth -= 1,
            _ if depth > 0 => {}
            text => {
                found.push(at);
                if text.ends_with('.') || is_projection(text) {
                    break;
                }
            }
        }
    }
    found
}

/// Whether an equals sign gives a field or a `let` its value.
fn is_assigned(words: &[Word], equals: usize) -> bool {
    equals >= 2 && matches!(words[equals - 2].text, "{" | ";" | "let")
}

mod tests {
    use super::{head, signs, used, words};

    fn texts(text: &str) -> Vec<&str> {
        words(text).iter().map(|word| word.text).collect()
    }

    fn used_in(text: &str) -> Vec<&str> {
        used(&words(text)).iter().map(|word| word.text).collect()
    }

    #[test]
    fn brackets_and_comments_end_words() {
        assert_eq!(
            texts("f (a-b′.c).d{[]}-- e"),
            ["f", "(", "a-b′.c", ")", ".d", "{", "[]", "}"]
        );
        assert_eq!(texts("-- all of it\nf \"g -- h\" k"), ["f", "k"]);
        assert_eq!(words("\na").first().map(|word| word.line), Some(2));
    }

    #[test]
    fn names_are_told_from_what_is_bound() {
        assert_eq!(used_in("(f g).h k.m"), ["(", "f", "g", ")", "k.m"]);
        assert_eq!(
            used_in("(a b : T) → {c : U}"),
            ["(", ":", "T", ")", "→", "{", ":", "U", "}"]
        );
        assert_eq!(used_in("λ a b. c"), ["λ", "c"]);
        assert_eq!(used_in("λ (a : T) b. c"), ["λ", "(", ":", "T", ")", "c"]);
        assert_eq!(used_in("λ (a : T). c"), ["λ", "(", ":", "T", ")", "c"]);
        assert_eq!(
            used_in("record { a = b; c = d }"),
            ["record", "{", "=", "b", ";", "=", "d", "}"]
        );
        assert_eq!(used_in("let a = b in c"), ["let", "=", "b", "in", "c"]);
        assert_eq!(used_in("a = b\nc : d"), ["a", "=", "b", ":", "d"]);
    }

    #[test]
    fn an_operator_is_its_signs() {
        assert_eq!(signs("if◌then◌"), ["if", "then"]);
        assert_eq!(
            [signs("◌≡◌"), signs("a_b"), signs("_")],
            [["≡"], ["a_b"], ["_"]]
        );
    }

    #[test]
    fn a_path_is_named_by_its_head() {
        assert_eq!(
            [head("Kind.find"), head("a"), head("[]")],
            ["Kind", "a", "[]"]
        );
    }
}
