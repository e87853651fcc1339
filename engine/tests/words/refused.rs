//! Every refusal that a log can give: which record, the number, what it means
//! and what to do. 28 would need a log of 4,294,967,295 sends over one pair: a
//! program in the proved one's place gives it.

use crate::check_table::NAMED;
use crate::feigned_program::root_with;
use crate::program::{assert_told, file_with, log_of, printed, run_within, told_of};
use crate::refused_records::ROWS;
use engine::{run_slice, Kind, Refusal};
use std::process::Command;

/// A record for each row, with its setup as a log, and for the limits.
fn rows() -> Vec<(u8, Vec<u8>, &'static str)> {
    let mut rows: Vec<_> = ROWS
        .iter()
        .map(|&(number, setup, records)| (number, log_of(setup), records[0]))
        .collect();
    let joined = log_of("start 0 0, start 1 1, call 0 1, route 0 1");
    let full = [joined, log_of("send 0 1 9").repeat(1_024)];
    rows.push((24, full.concat(), "send 1 0 9"));
    let there_and_back = log_of("move 0 1, land 0, move 0 0, land 0");
    let exhausted = [log_of("start 0 0"), there_and_back.repeat(65_534)];
    rows.push((25, exhausted.concat(), "start 1 0"));
    rows
}

/// The words below a refused record.
fn words_for(what: &str, refusal: Refusal) -> String {
    let (number, meaning) = (refusal.number(), refusal.meaning());
    let remedy = refusal.remedy();
    format!("    {what} is refused with {number}: {meaning}.\n    To do: {remedy}.\n")
}

#[test]
fn every_refusal_is_told() {
    for (number, setup, record) in rows() {
        let log = [&setup[..], &log_of(record)].concat();
        let Some(told) = told_of("refused.log", &log) else {
            return;
        };
        assert_eq!(run_within(&told).as_bytes(), run_slice(&log), "{number}");
        let refusal = Refusal::from_number(number).unwrap();
        let (position, kind) = (setup.len(), log[setup.len()]);
        let words = words_for(record, refusal);
        let line = format!("\n{position} {kind:02X} {number} 0 0 0\n{words}");
        assert_eq!(told.matches(&line).count(), 1, "{line}");
        let counted = format!(
            " accepted, 1 refused.\n    1 refused with {number}: {}.\n",
            refusal.meaning()
        );
        assert!(told.contains(&counted), "{counted}");
    }
}

#[test]
fn rows_reach_every_number_that_a_whole_record_gets() {
    let mut numbers: Vec<u8> = rows().iter().map(|(number, ..)| *number).collect();
    numbers.dedup();
    let named = NAMED.map(|(number, _)| number);
    assert_eq!(numbers, named.strip_suffix(&[28]).unwrap());
}

#[test]
fn a_spent_pair_is_told() {
    let program = [("replay", "echo 0 04 28 0 0 0; echo end")];
    let root = root_with("words-spent", &program);
    let mut command = Command::new(env!("CARGO_BIN_EXE_command-line"));
    command.arg(&*root).arg("--words");
    command.arg(file_with("spent.log", &log_of("send 0 1 500")));
    let told = printed(command.output().unwrap());
    let words = words_for("send 0 1 500", Refusal::SendsExhausted);
    let line = format!("0 04 28 0 0 0\n{words}end\n    1 record: none accepted, 1 refused.\n");
    assert!(told.starts_with(&line), "{told}");
}

const UNKNOWN: &str = "\
0 01 0 7 1 0
    start 15 7: rank 15 starts on host 7; its vmid is 7.1: host 7, number 1.
3 7F 2 0 0 0
    the byte 7F is refused with 2: a byte that is no record kind.
    To do: fetch the log again: it is damaged or from another version, and nothing behind this byte can be trusted.
end
    2 records: 1 accepted, 1 refused.
    1 refused with 2: a byte that is no record kind.
    The run stopped at position 3: what stands there was not carried out, and what follows was not read.
    No move is open.
    Nothing is unread.
";

#[test]
fn a_byte_that_is_no_kind_is_told() {
    let log = log_of("start 15 7, bytes 7f, start 0 0");
    assert_told("unknown.log", &log, UNKNOWN);
}

#[test]
fn a_record_cut_short_is_told_by_its_kind() {
    for kind in Kind::ALL {
        let words = words_for(&format!("{}, cut short,", kind.word()), Refusal::CutShort);
        let expected = format!(
            "0 {:02X} 3 0 0 0\n{words}end\n    1 record: none accepted, 1 refused.\n    \
             1 refused with 3: the log ends here, or in the middle of the record.\n    \
             The run stopped at position 0: what stands there was not carried out, \
             and what follows was not read.\n    No move is open.\n    Nothing is unread.\n",
            kind as u8
        );
        let name = format!("cut-{}.log", kind.word());
        assert_told(&name, &[kind as u8], &expected);
    }
}
