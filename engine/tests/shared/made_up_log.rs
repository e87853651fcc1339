//! The logs of made-up passes, paper 02, Change 1.

use engine::made_up;
use engine::made_up::LONGEST_RECORD;

/// The log of so many records from a seed, which is not zero.
pub fn made_up_log(seed: u32, records: usize) -> Vec<u8> {
    let mut log = vec![0; LONGEST_RECORD * records];
    let length = made_up(seed, records as u64, &mut log).unwrap();
    log.truncate(length);
    log
}
