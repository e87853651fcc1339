//! The public laws of an Antt text: what it declares with `pub NAME :` and
//! nobody may unfold.

use std::ops::Range;

/// A law and the lines of its statement and its proof.
#[derive(Debug, PartialEq)]
pub struct Law {
    pub name: String,
    pub lines: Range<usize>,
}

/// What else `pub` stands before.
const OTHERS: [&str; 5] = ["record", "data", "mod", "use", "module"];

pub fn laws(text: &str) -> Vec<Law> {
    let lines: Vec<&str> = text.lines().collect();
    let mut laws = Vec::new();
    let mut typed: Option<usize> = None;
    for (at, content) in lines.iter().enumerate() {
        if content.is_empty() {
            continue;
        }
        typed = typed.filter(|column| indent(content) > *column);
        if typed.is_none() && declares_type(content) {
            typed = Some(indent(content));
        }
        if let Some(name) = law_name(content).filter(|_| typed.is_none()) {
            laws.push(Law {
                name: name.to_owned(),
                lines: at + 1..at + 1 + length(&lines[at..], name),
            });
        }
    }
    laws
}

fn indent(content: &str) -> usize {
    content.len() - content.trim_start().len()
}

/// Whether a record or a data type is declared, whose fields follow. A record
/// that is written out has a brace.
fn declares_type(content: &str) -> bool {
    let content = content.trim_start();
    let content = content.strip_prefix("pub ").unwrap_or(content);
    let is_type = content.starts_with("record ") || content.starts_with("data ");
    is_type && !content.starts_with("record {")
}

fn law_name(content: &str) -> Option<&str> {
    let declared = content.trim_start().strip_prefix("pub ")?;
    let name = declared.split(' ').next()?;
    (!OTHERS.contains(&name)).then_some(name)
}

/// How many lines a declaration has, of those from its first on: what is
/// further to the right, `unfolding`, its clauses, comments, and brackets that
/// close.
fn length(lines: &[&str], name: &str) -> usize {
    let column = indent(lines[0]);
    let belongs = |content: &&str| {
        let first = content.trim_start().split(' ').next().unwrap_or("");
        let continues = [name, "unfolding", "--", ")", "]", "}", ""].contains(&first);
        continues || indent(content) > column
    };
    1 + lines[1..].iter().copied().take_while(belongs).count()
}

mod tests {
    use super::laws;

    const TEXT: &str = "\
pub record Pair : Type 0 where
  pub left : A

pub mod B
abbrev pub C : Type 0
C = A

pub law : A
unfolding C
law =
    x
-- of the next
private : A
module _ (a : A) where
  pub inner {ℓ} : B
  inner = record {
    left = a;
  }

  record Own : Type 0 where
    pub part : A
";

    #[test]
    fn laws_are_told_from_definitions_and_fields() {
        let found = laws(TEXT);
        let found: Vec<_> = found
            .iter()
            .map(|law| (&law.name[..], law.lines.clone()))
            .collect();
        assert_eq!(found, [("law", 8..13), ("inner", 15..20)]);
    }
}
