//! Logs of any bytes: none at all, every single byte, and noise that is more
//! or less like records.

use crate::log::{Feed, Log};
use engine::bits::Bits;
use engine::Kind;

/// Bytes without any order, up to a highest one.
fn noise(bits: &mut Bits, length: usize, highest: u8) -> Vec<u8> {
    let limit = u32::from(highest) + 1;
    (0..length).map(|_| bits.below(limit) as u8).collect()
}

/// Whole records of known kinds with bodies up to a highest byte.
fn loose_records(bits: &mut Bits, count: usize, highest: u8) -> Vec<u8> {
    let mut log = Vec::new();
    for _ in 0..count {
        let kind = Kind::ALL[bits.below(Kind::ALL.len() as u32) as usize];
        log.push(kind as u8);
        log.extend(noise(bits, kind.record_length() - 1, highest));
    }
    log
}

pub fn logs() -> Vec<Log> {
    let mut bits = Bits::new(2);
    let mut logs = vec![
        Log::new("empty-pipe", Vec::new(), Feed::Pipe),
        Log::new("empty-file", Vec::new(), Feed::File),
    ];
    for byte in 0..=u8::MAX {
        logs.push(Log::new(format!("byte-{byte:02x}"), vec![byte], Feed::Pipe));
    }
    for turn in 0..150 {
        let highest = [15, 31, 255][turn % 3];
        let length = 2 + bits.below(400) as usize;
        let bytes = noise(&mut bits, length, highest);
        logs.push(Log::new(format!("noise-{turn}"), bytes, Feed::Pipe));
        let bytes = loose_records(&mut bits, length, highest);
        logs.push(Log::new(format!("loose-{turn}"), bytes, Feed::Pipe));
    }
    let long = noise(&mut bits, 200_000, 255);
    logs.push(Log::new("noise-long", long, Feed::Pipe));
    logs
}
