//! The list of states as it is written: a state is a quoted sentence, a line
//! for each change and a line with the verdict and the name.

/// The repository.
pub const ROOT: &str = concat!(env!("CARGO_MANIFEST_DIR"), "/..");

/// The words of a change, each with the fields behind it: a rank `r`, a host
/// `h`, a vmid `v`, which is two numbers, and any other number `n`.
pub const WORDS: [(&str, &str); 16] = [
    ("fresh", ""),
    ("running", "rv"),
    ("moving", "rvv"),
    ("ended", "rv"),
    ("drawn", "hn"),
    ("table", "rrv"),
    ("tables", "rv"),
    ("call", "rrv"),
    ("plain", "rr"),
    ("notice", "rr"),
    ("unheeded", "rr"),
    ("marked", "rr"),
    ("message", "rrnn"),
    ("messages", "nrrnn"),
    ("numbered", "rrnnn"),
    ("sent", "rrn"),
];

/// A state of the list.
#[derive(Clone, Debug, Default)]
pub struct Listed {
    /// The section that it stands in.
    pub section: String,
    /// Whether the section is one of theorems.
    pub computed: bool,
    /// The sentence of the papers that it is about.
    pub sentence: String,
    /// Its changes, each a word and numbers.
    pub changes: Vec<String>,
    /// Whether the list says that it is sound.
    pub sound: bool,
    /// Its name.
    pub name: String,
}

impl Listed {
    /// The word by which the list says whether it is sound.
    pub fn verdict(&self) -> &'static str {
        if self.sound {
            "sound"
        } else {
            "unsound"
        }
    }
}

/// All states, in order. A line before the first section belongs to none.
pub fn states() -> Vec<Listed> {
    let text = std::fs::read_to_string(format!("{ROOT}/crates/test_spoiled/stdin")).unwrap();
    let sections = text.find("\n## ").expect("no section");
    let mut states = Vec::new();
    let mut next = Listed::default();
    for line in text[sections + 1..].lines().filter(|line| !line.is_empty()) {
        let (word, rest) = line.split_once(' ').unwrap_or((line, ""));
        match word {
            "##" | "###" => {
                next.section = rest.to_string();
                next.computed = word == "##";
            }
            "#" => next.sentence = rest.to_string(),
            "sound" | "unsound" => {
                assert!(!next.sentence.is_empty(), "{line} is about no sentence");
                next.sound = word == "sound";
                next.name = rest.to_string();
                let following = Listed {
                    section: next.section.clone(),
                    computed: next.computed,
                    ..Listed::default()
                };
                states.push(std::mem::replace(&mut next, following));
            }
            _ => next.changes.push(line.to_string()),
        }
    }
    assert!(next.changes.is_empty(), "changes without a name");
    states
}

/// What the program `test_spoiled` prints for these states.
pub fn printed(states: &[Listed]) -> String {
    let line = |listed: &Listed| format!("{} {}\n", listed.name, listed.verdict());
    states.iter().map(line).collect()
}
