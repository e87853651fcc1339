//! Long logs: "Input may be of any length, read through at most 65,536 bytes".
//! A send lies across each of the first edges, cut there at every offset, and
//! logs end close to an edge.

use crate::log::{append_random, log_of, Feed, Log};
use engine::proposals::Mix;

const EDGE: usize = 65_536;

/// So many edges have a send laid across them.
const EDGES: usize = 3;

/// The length of a send's record.
const SEND: usize = 7;

/// How many bytes of the send at an edge lie before it.
fn offset_at(edge: usize, first: usize) -> usize {
    (first + 3 * (edge - 1)) % SEND
}

/// Sends and takes, with a send at an offset before each edge, then random
/// steps. Rank 0 always has a message unread to look at.
fn across_the_edges(first: usize) -> Vec<u8> {
    let mut log = log_of("start 0 0, start 1 1, call 0 1, route 0 1, send 1 0 77");
    for edge in 1..=EDGES {
        fill(&mut log, edge * EDGE - offset_at(edge, first));
        let value = 0xA1B2_C3D4_u32.rotate_left(edge as u32);
        log.extend(log_of(&format!("send 0 1 {value}, take 1 0")));
    }
    append_random(&mut log, first as u64 + 1, Mix::TRAFFIC, 20_000);
    log
}

/// Makes the log this long with whole records.
fn fill(log: &mut Vec<u8>, length: usize) {
    while length - log.len() >= 12 {
        let value = log.len();
        log.extend(log_of(&format!("send 0 1 {value}, take 1 0")));
    }
    if (length - log.len()) % 2 == 1 {
        log.extend(log_of("take 1 0"));
    }
    let looks = (length - log.len()) / 2;
    log.extend(log_of("look 0").repeat(looks));
}

pub fn logs() -> Vec<Log> {
    let mut logs = Vec::new();
    for first in 0..SEND {
        let long = across_the_edges(first);
        let name = |what: &str| format!("edge-{first}-{what}");
        logs.push(Log::new(name("cut"), long[..EDGE].to_vec(), Feed::File));
        if first == 3 {
            for length in EDGE - 6..=EDGE + 7 {
                let cut = long[..length].to_vec();
                logs.push(Log::new(name(&format!("to-{length}")), cut, Feed::File));
            }
        }
        if first == 0 {
            let unknown = [&long[..EDGE], &[0x7F, 0, 0]].concat();
            logs.push(Log::new(name("unknown"), unknown, Feed::Pipe));
        }
        logs.push(Log::new(name("pipe"), long.clone(), Feed::Pipe));
        logs.push(Log::new(name("file"), long, Feed::File));
    }
    logs
}

mod tests {
    use super::{across_the_edges, offset_at, EDGE, EDGES, SEND};
    use crate::log::record_starts;
    use engine::Kind;

    #[test]
    fn a_send_is_cut_at_every_offset_at_every_edge() {
        let mut met = [[false; SEND]; EDGES];
        for first in 0..SEND {
            let log = across_the_edges(first);
            assert!(log.len() > 250_000, "{} bytes", log.len());
            let starts = record_starts(&log);
            for edge in 1..=EDGES {
                let offset = offset_at(edge, first);
                let start = edge * EDGE - offset;
                assert!(starts.binary_search(&start).is_ok());
                assert_eq!(log[start], Kind::Send as u8);
                met[edge - 1][offset] = true;
            }
        }
        assert_eq!(met, [[true; SEND]; EDGES]);
    }
}
