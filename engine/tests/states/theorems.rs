//! The theorems of `crates/test_worked`: for each section of the list a file, and in
//! it for each state a definition and a theorem, computed from the definition
//! of soundness. An unsound state is computed in the clauses of its section; a
//! full desk that is sound is so by a law, from the state before its messages.
//! A section under three marks, `###`, has no theorems.

use crate::list::{Listed, WORDS};

/// The longest line of a file.
const WIDTH: usize = 140;

/// The path and the text of each file.
pub fn files(states: &[Listed]) -> Vec<(String, String)> {
    let first = &states[0];
    let sections = states.chunk_by(|one, next| one.section == next.section);
    let file = |group: &[Listed]| {
        let path = format!("crates/test_worked/specs/{}.antt", group[0].section);
        (path, theorems(group, first))
    };
    let computed = |group: &&[Listed]| group[0].computed;
    sections.filter(computed).map(file).collect()
}

fn theorems(group: &[Listed], first: &Listed) -> String {
    let section = &group[0].section;
    let mut text = format!(
        "-- The states of crates/test_spoiled/stdin, section {section}, and of each the theorem that it is sound or unsound.\n\
         -- Written from that list by the Rust tests. Assumes nothing.\n"
    );
    for import in imports(group, first) {
        text.push_str(&format!("use {import}\n"));
    }
    for listed in group {
        text.push_str(&format!("\n-- {}\n", listed.sentence));
        text.push_str(&definition(listed, first));
        text.push_str(&theorem(listed, first));
    }
    text
}

fn imports(group: &[Listed], first: &Listed) -> Vec<String> {
    let section = &group[0].section;
    let unsound = group.iter().any(|listed| !listed.sound);
    let starts = group[0].name == first.name;
    let filled = group.iter().any(|listed| filling(listed).is_some());
    let mut opened = vec!["opened_sound".to_string()];
    let mut values = vec!["true"];
    if unsound {
        opened.insert(0, format!("opened_{}", section.to_lowercase()));
        values.push("false");
    }
    if filled {
        opened.insert(0, "opened_checks".to_string());
    }
    let mut imports = vec![
        format!(
            "Rattle.std.specs.Prelude.{{◌≡◌, refl, {}, [], ◌∷◌}}",
            values.join(", ")
        ),
        format!(
            "Rattle.protocol.specs.Laws.Opened.{{{}}}",
            opened.join(", ")
        ),
        "Rattle.protocol.specs.Sound.{sound}".to_string(),
    ];
    if starts {
        imports.push("Rattle.broker.specs.State as Desk".to_string());
    }
    imports.push("Rattle.broker.specs.State.{State}".to_string());
    if filled {
        imports.push("Rattle.test_worked.specs.Filled.{filled}".to_string());
    }
    if unsound {
        let law = section.to_lowercase();
        imports.push(format!(
            "Rattle.test_worked.specs.Unsound.{{{law}_unsound}}"
        ));
    }
    if !starts {
        let (section, name) = (&first.section, named_in_antt(first));
        imports.push(format!("Rattle.test_worked.specs.{section}.{{{name}}}"));
    }
    let used = |word: &&str| {
        let uses = |change: &String| change.split(' ').next() == Some(word);
        group.iter().any(|listed| listed.changes.iter().any(uses))
    };
    let words = WORDS.iter().map(|&(word, _)| word).filter(used);
    let words: Vec<&str> = ["changed"].into_iter().chain(words).collect();
    imports.push(named("Rattle.test_worked.specs.Words", &words));
    imports
}

/// The name of a state where it is defined: the list has dashes in it.
fn named_in_antt(listed: &Listed) -> String {
    listed.name.replace('-', "_")
}

/// An import of names on one line, or on a line each where that is too long.
fn named(module: &str, names: &[&str]) -> String {
    let line = format!("{module}.{{{}}}", names.join(", "));
    if "use ".len() + line.chars().count() <= WIDTH {
        line
    } else {
        format!("{module}.{{\n  {},\n}}", names.join(",\n  "))
    }
}

/// The changes in turn, as many to a line as it holds.
fn definition(listed: &Listed, first: &Listed) -> String {
    let name = named_in_antt(listed);
    let start = if listed.name == first.name {
        "Desk.fresh".to_owned()
    } else {
        named_in_antt(first)
    };
    let list = match &listed.changes[..] {
        [] => "[]".to_string(),
        changes => format!("({} ∷ [])", changes.join(" ∷ ")),
    };
    let head = format!("abbrev pub {name} : State\n{name} =");
    let whole = format!("{name} = changed {start} {list}");
    if whole.chars().count() <= WIDTH {
        return format!("{head} changed {start} {list}\n");
    }
    let mut text = format!("{head}\n    changed {start}\n   ");
    let mut column = 3;
    for part in list.split_inclusive(" ∷ ") {
        let part = part.trim_end();
        let width = part.chars().count();
        if column + 1 + width > WIDTH {
            text.push_str("\n   ");
            column = 3;
        }
        text.push_str(&format!(" {part}"));
        column += 1 + width;
    }
    text.push('\n');
    text
}

/// The messages that the last change of a sound state puts on a plain line: from
/// whom and to whom, the value, and how many.
fn filling(listed: &Listed) -> Option<String> {
    let words: Vec<&str> = listed.changes.last()?.split(' ').collect();
    match words[..] {
        ["messages", count, sender, receiver, "3", value] if listed.sound => {
            Some(format!("{sender} {receiver} {value} {count}"))
        }
        _ => None,
    }
}

fn theorem(listed: &Listed, first: &Listed) -> String {
    let (name, verdict) = (named_in_antt(listed), listed.verdict());
    let section = listed.section.to_lowercase();
    let mut text = "\n".to_string();
    let (opened, proof) = if let Some(messages) = filling(listed) {
        let mut before = listed.clone();
        before.name = format!("{}-before", listed.name);
        before.changes.pop();
        text = format!("\n{}\n", definition(&before, first));
        (
            "opened_checks opened_sound".to_string(),
            format!(
                "\n    filled {messages} {} refl refl refl (refl, refl, refl, refl)",
                named_in_antt(&before)
            ),
        )
    } else if listed.sound {
        ("opened_sound".to_string(), " refl".to_string())
    } else {
        (
            format!("opened_{section}"),
            format!(" {section}_unsound {name} refl"),
        )
    };
    text + &format!(
        "pub {name}_is_{verdict} : sound {name} ≡ {}\nunfolding {opened}\n{name}_is_{verdict} ={proof}\n",
        listed.sound
    )
}
