//! What a text stands for, against the records of paper 01, "The step log".

use crate::step_log::{record_of, Listed, KINDS};
use engine::text::{decode, encode};

/// A line of each kind: a value of four different bytes, and for every other
/// field the byte of its letter.
fn lines() -> Vec<String> {
    let number = |field: &&str| match *field {
        "value" => 0x0403_0201,
        letter => u32::from(letter.as_bytes()[0]),
    };
    let line = |&(_, word, body): &Listed| {
        let numbers = body.iter().map(|field| format!(" {}", number(field)));
        word.to_owned() + &numbers.collect::<String>()
    };
    KINDS.iter().map(line).collect()
}

#[test]
fn each_kind_is_its_record() {
    for line in lines() {
        let record = record_of(&line);
        assert_eq!(encode(&line).unwrap(), record, "{line}");
        assert_eq!(decode(&record), format!("{line}\n"));
    }
}

#[test]
fn lines_follow_each_other() {
    let text = lines().join("\n") + "\n";
    let log: Vec<u8> = text.lines().flat_map(record_of).collect();
    assert_eq!(encode(&text).unwrap(), log);
    assert_eq!(decode(&log), text);
}

#[test]
fn an_empty_text_is_an_empty_log() {
    for text in [
        "",
        "\n",
        "\r\n\r\n",
        "  \t \n",
        "# nothing",
        "\n   # nothing\n#\n",
    ] {
        assert_eq!(encode(text).unwrap(), [], "{text:?}");
    }
    assert_eq!(decode(&[]), "");
}

#[test]
fn blanks_comments_and_line_ends_do_not_matter() {
    let log = [0x01, 0, 0, 0x01, 1, 1, 0x0C, 0];
    for text in [
        "start 0 0\nstart 1 1\nlook 0\n",
        "start 0 0\nstart 1 1\nlook 0",
        "start 0 0\r\nstart 1 1\r\nlook 0\r\n",
        "\n\nstart 0 0\n\n\nstart 1 1\n\nlook 0\n\n",
        "  start\t0   0  \n\tstart 1\t1\nlook 0 ",
        "# two ranks\nstart 0 0 # one\nstart 1 1# the other\n#\nlook 0 # look 1\n",
        "# start 5 5\r\nstart 0 0 # one\r\n\r\nstart 1 1\r\nlook 0#\r\n",
        "bytes 1 0 0 1 1\nbytes 01 0c 00 # the rest",
        "\u{FEFF}start 0 0\r\nstart 1 1\r\nlook 0",
    ] {
        assert_eq!(encode(text).unwrap(), log, "{text:?}");
    }
}

#[test]
fn numbers_are_decimal_or_hexadecimal() {
    for (line, record) in [
        ("start 0x0 0x7", &[0x01, 0, 7][..]),
        ("start 0x0F 0xff", &[0x01, 15, 255]),
        ("call 015 00", &[0x02, 15, 0]),
        ("send 0 1 0xDeadBeef", &[0x04, 0, 1, 0xEF, 0xBE, 0xAD, 0xDE]),
        ("send 0 1 4294967295", &[0x04, 0, 1, 255, 255, 255, 255]),
        ("send 0 1 0xffffffff", &[0x04, 0, 1, 255, 255, 255, 255]),
        ("send 0 1 0", &[0x04, 0, 1, 0, 0, 0, 0]),
        ("bytes 10 0x10 A a 0a", &[0x10, 0x10, 10, 10, 10]),
    ] {
        assert_eq!(encode(line).unwrap(), record, "{line}");
    }
}

#[test]
fn what_is_no_record_is_one_line_of_bytes() {
    assert_eq!(decode(&[0]), "bytes 0\n");
    assert_eq!(decode(&[0x04, 0, 1, 0xFF]), "bytes 4 0 1 ff\n");
    assert_eq!(encode("bytes 4 0 1 ff").unwrap(), [0x04, 0, 1, 0xFF]);
    assert_eq!(decode(&[0x7F, 1, 0, 0]), "bytes 7f 1 0 0\n");
    assert_eq!(decode(&[0x0C, 3, 0x04, 0, 1, 2]), "look 3\nbytes 4 0 1 2\n");
    let log = [0x01, 0, 0, 0xFF, 0x01, 1, 1];
    assert_eq!(decode(&log), "start 0 0\nbytes ff 1 1 1\n");
}
