//! Every log has a text that gives it back, and a text that a log gives is
//! given back by the log that it stands for.

use engine::proposals::{random_log, Mix};
use engine::text::{decode, encode};

/// The text of a log, after both ways round.
fn check_both_ways(log: &[u8]) -> String {
    let text = decode(log);
    assert_eq!(encode(&text).unwrap(), log);
    assert_eq!(decode(&encode(&text).unwrap()), text);
    text
}

fn noise(seed: u32, length: usize, mask: u8) -> Vec<u8> {
    let mut bits = seed.wrapping_mul(0x9E37_79B9) | 1;
    let next = || {
        bits ^= bits << 13;
        bits ^= bits >> 17;
        bits ^= bits << 5;
        bits as u8 & mask
    };
    std::iter::repeat_with(next).take(length).collect()
}

#[test]
fn random_logs_come_back_with_a_line_for_each_record() {
    for seed in 1..=400 {
        let mix = if seed % 2 == 0 {
            Mix::BROAD
        } else {
            Mix::TRAFFIC
        };
        let records = 3 * seed as usize;
        let text = check_both_ways(&random_log(seed, mix, records));
        assert_eq!(text.lines().count(), records);
        assert!(!text.contains("bytes"));
    }
}

#[test]
fn cut_logs_come_back() {
    for seed in 1..=40 {
        let log = random_log(seed, Mix::BROAD, 60);
        for length in 0..log.len() {
            check_both_ways(&log[..length]);
        }
    }
}

#[test]
fn changed_logs_come_back() {
    let log = random_log(3, Mix::BROAD, 100);
    for index in 0..log.len() {
        for mask in [0x01, 0x10, 0xFF] {
            let mut changed = log.clone();
            changed[index] ^= mask;
            check_both_ways(&changed);
        }
    }
}

#[test]
fn garbage_comes_back() {
    for byte in 0..=u8::MAX {
        check_both_ways(&[byte]);
        check_both_ways(&[byte; 7]);
    }
    for seed in 1..=2_000 {
        let mask = [0x0F, 0x1F, 0xFF][seed as usize % 3];
        check_both_ways(&noise(seed, seed as usize % 300, mask));
    }
    check_both_ways(&noise(1, 300_000, 0xFF));
}

/// Comments and other ways to write a number are lost on the way, and nothing
/// else is.
#[test]
fn a_text_comes_back_in_its_plain_form() {
    let text = "# two ranks\r\nstart 0x0 00\n\n start 1 1 # here\nsend 0 1 0xFFFFFFFF\nbytes 0c 1";
    let plain = "start 0 0\nstart 1 1\nsend 0 1 4294967295\nlook 1\n";
    let log = encode(text).unwrap();
    assert_eq!(decode(&log), plain);
    assert_eq!(encode(plain).unwrap(), log);
}
