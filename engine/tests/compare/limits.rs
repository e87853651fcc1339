//! Logs that reach a limit of paper 01: 1,024 messages unread, 65,535 numbers
//! drawn on a host, and the ends of the range of a value.

use crate::log::{log_of, sends, Feed, Log};

const JOINED: &str = "start 0 0, start 1 1, call 0 1, route 0 1";

/// All ranks joined, messages in all 240 ordered pairs, then moves and parts,
/// so that many pairs at all places are printed.
fn full_crowd() -> Vec<u8> {
    let mut log = Vec::new();
    let pairs = || (0..16_u8).flat_map(|a| (0..16_u8).map(move |b| (a, b)));
    for rank in 0..16 {
        log.extend(log_of(&format!("start {rank} {}", rank % 8)));
    }
    for (a, b) in pairs().filter(|(a, b)| a < b) {
        log.extend(log_of(&format!("call {b} {a}, route {b} {a}")));
    }
    for (a, b) in pairs().filter(|(a, b)| a != b) {
        log.extend(sends(a, b, 0..4));
    }
    log.extend(sends(15, 0, 0..65));
    for (a, b) in pairs().filter(|(a, b)| a < b && (a + b) % 5 == 0) {
        log.extend(log_of(&format!("part {a} {b}")));
    }
    for rank in (0..16_u8).step_by(3) {
        let host = (rank + 1) % 8;
        log.extend(log_of(&format!("move {rank} {host}, look {rank}")));
    }
    for (a, b) in pairs().filter(|(a, b)| a != b && (a + 2 * b) % 3 == 0) {
        log.extend(log_of(&format!("heed {b} {a}, drain {a} {b}, look {b}")));
    }
    log
}

/// Ranks 0 and 1 change places until 65,533 numbers are drawn on host 0 and on
/// host 1. The last two are drawn by starts on host 0, by moves on host 1. Then
/// all ranks try both hosts, unstarted, and running on another.
fn exhausted() -> Vec<u8> {
    let there = "move 0 1, land 0, move 1 0, land 1";
    let back = "move 0 0, land 0, move 1 1, land 1";
    let mut log = [
        log_of("start 0 0, start 1 1"),
        log_of(&format!("{there}, {back}")).repeat(32_766),
        log_of("start 2 0, start 3 0, start 4 0, move 1 0, move 0 0"),
        log_of("move 2 1, land 2, move 3 1, land 3, move 0 1, start 4 1, move 1 1"),
    ]
    .concat();
    for rank in 0..=16 {
        for host in [0, 1, 8, 2] {
            let tries = format!("start {rank} {host}, move {rank} {host}, land {rank}");
            log.extend(log_of(&tries));
        }
        log.extend(log_of(&format!("move {rank} 0, move {rank} 1")));
    }
    log
}

/// Rank 0 restarts until all numbers of host 0 are drawn.
pub fn all_numbers_of_host_0() -> Vec<u8> {
    [
        log_of("start 0 0"),
        log_of("move 0 0, land 0").repeat(65_534),
    ]
    .concat()
}

/// By restarts. Then nobody starts, restarts or comes there any more, and rank 0
/// moves elsewhere.
fn exhausted_by_restarts() -> Vec<u8> {
    [
        all_numbers_of_host_0(),
        log_of("move 0 0, land 0, start 1 0, start 1 1, move 1 0, move 1 1, land 1"),
        log_of("move 0 1, land 0, move 0 0, move 0 1, land 0"),
    ]
    .concat()
}

fn values() -> Vec<u8> {
    let values = [0, 1, 255, 256, 0x7FFF_FFFF, 0x8000_0000, 0xFFFF_FFFF_u32];
    let sends: String = values.map(|value| format!(", send 0 1 {value}")).concat();
    let shown = ", move 1 2, drain 1 0, drain 1 0, drain 1 0, drain 1 0, drain 1 0, drain 1 0, \
        drain 1 0, heed 0 1, drain 1 0, land 1";
    [
        log_of(&format!("{JOINED}{sends}{shown}")),
        log_of("take 1 0").repeat(values.len()),
    ]
    .concat()
}

pub fn logs() -> Vec<Log> {
    vec![
        Log::new("numbers-exhausted", exhausted(), Feed::File),
        Log::new("restarts-exhausted", exhausted_by_restarts(), Feed::File),
        Log::new("full-crowd", full_crowd(), Feed::Pipe),
        Log::new("values", values(), Feed::Pipe),
    ]
}
