//! The logs that the programs get, record by record and as files.

use crate::printed_run::STEPS;
use engine::proposals::{random_log, Mix};
use engine::text::encode;
use engine::Step;
use std::fs::{self, File};
use std::path::PathBuf;

/// The log of the paper's listing.
pub fn listing_log() -> Vec<u8> {
    encode(&STEPS.replace(", ", "\n")).unwrap()
}

/// A log whose run is some ten times what a pipe or a page holds.
pub fn long_log() -> Vec<u8> {
    random_log(30, Mix::TRAFFIC, 40_000)
}

/// The records of a log of whole ones.
pub fn records(log: &[u8]) -> Vec<&[u8]> {
    let mut found = Vec::new();
    let mut rest = log;
    while let Ok((_, length)) = Step::read(rest) {
        let (record, later) = rest.split_at(length);
        found.push(record);
        rest = later;
    }
    assert!(rest.is_empty());
    found
}

/// The place of a file of this name among those that tests leave.
pub fn scratch(name: &str) -> PathBuf {
    PathBuf::from(env!("CARGO_TARGET_TMPDIR")).join(format!("faults-{name}"))
}

/// A file of this name with these bytes.
pub fn file_with(name: &str, bytes: &[u8]) -> PathBuf {
    let path = scratch(name);
    fs::write(&path, bytes).unwrap();
    path
}

/// An output that takes nothing, as on a disk that is full.
pub fn full_disk() -> File {
    File::options().write(true).open("/dev/full").unwrap()
}
