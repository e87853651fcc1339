//! The memory that a program takes.

use std::fs;
use std::process::Child;

/// The most memory that a program has had so far; none where it has ended.
pub fn peak_memory_kib(child: &Child) -> Option<u64> {
    let status = fs::read_to_string(format!("/proc/{}/status", child.id())).ok()?;
    let line = status.lines().find(|line| line.starts_with("VmHWM:"))?;
    line.split_whitespace().nth(1)?.parse().ok()
}
