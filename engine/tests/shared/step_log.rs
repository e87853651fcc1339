//! Paper 01, "The step log", as the tests read it: its kinds with their bodies,
//! in a table apart from the engine's own, and records written by it.

/// A kind's byte, its word, and the fields of its body by the paper's letters.
pub type Listed = (u8, &'static str, &'static [&'static str]);

/// The paper's list, "01 start r h" and so on.
pub const KINDS: [Listed; 12] = [
    (0x01, "start", &["r", "h"]),
    (0x02, "call", &["a", "b"]),
    (0x03, "route", &["a", "b"]),
    (0x04, "send", &["a", "b", "value"]),
    (0x05, "take", &["b", "a"]),
    (0x06, "move", &["r", "h"]),
    (0x07, "heed", &["b", "r"]),
    (0x08, "drain", &["r", "s"]),
    (0x09, "land", &["r"]),
    (0x0A, "part", &["a", "b"]),
    (0x0B, "end", &["r"]),
    (0x0C, "look", &["r"]),
];

/// "Ranks and hosts are one byte each; the value is four bytes."
pub fn field_length(field: &str) -> usize {
    match field {
        "value" => 4,
        _ => 1,
    }
}

/// The record of a line, "send 0 1 500"; numbers are "least significant first".
pub fn record_of(line: &str) -> Vec<u8> {
    let mut words = line.split(' ');
    let word = words.next().unwrap();
    let listed = KINDS.iter().find(|(_, known, _)| *known == word);
    let (kind, _, body) = listed.unwrap_or_else(|| panic!("no kind is called {word}"));
    let numbers: Vec<u64> = words.map(|number| number.parse().unwrap()).collect();
    assert_eq!(numbers.len(), body.len(), "{line}");
    let mut record = vec![*kind];
    for (field, number) in body.iter().zip(numbers) {
        let bytes = number.to_le_bytes();
        let (written, beyond) = bytes.split_at(field_length(field));
        assert!(beyond.iter().all(|&byte| byte == 0), "{line}");
        record.extend(written);
    }
    record
}
