//! Counts in sentences.

/// "no message", "1 message", "2 messages".
pub fn messages(count: u32) -> String {
    match count {
        0 => "no message".to_owned(),
        1 => "1 message".to_owned(),
        _ => format!("{count} messages"),
    }
}

/// The word for so many, none counting as one: "no message is", "2 messages
/// are".
pub fn verb(count: u32, one: &'static str, more: &'static str) -> &'static str {
    if count > 1 {
        more
    } else {
        one
    }
}

/// "none", or how many.
pub fn or_none(count: u64) -> String {
    match count {
        0 => "none".to_owned(),
        _ => count.to_string(),
    }
}

/// "1 message of the pair is", "2 messages of the pair are".
pub fn of_the_pair(count: u32) -> String {
    format!(
        "{} of the pair {}",
        messages(count),
        verb(count, "is", "are")
    )
}
