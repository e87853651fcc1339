//! Paper 02, Change 1: the generator against sequences that are known outside,
//! first records computed by hand, the two checks in their order, and what is
//! left as it was.

use crate::made_up_log::made_up_log;
use crate::step_log::KINDS;
use crate::text::log_of;
use engine::{made_up, MadeUp, NotMade};

/// What a buffer holds before.
const UNTOUCHED: u8 = 0xA5;

/// The least and the greatest seed, and some between them.
const SEEDS: [u32; 6] = [1, 2, 0x0001_0000, 0x8000_0000, 2_463_534_242, u32::MAX];

#[test]
fn draws_are_those_known_outside() {
    for (seed, known) in [
        (
            2_463_534_242,
            [723_471_715, 2_497_366_906, 2_064_144_800, 2_008_045_182],
        ),
        (1, [270_369, 67_634_689, 2_647_435_461, 307_599_695]),
    ] {
        let mut pass = MadeUp::new(seed).unwrap();
        assert_eq!(known.map(|_| pass.draw()), known);
    }
}

/// Seed 1 draws 270,369, which is 9 modulo 12: a part. The next two draws are 1
/// and 5 modulo 16. Then 307,599,695 is 11 modulo 12, a look, and the draw for
/// its rank is 1 modulo 16. Seed 3 draws 811,107, which is 3 modulo 12, a send:
/// 201,886,211 and 3,025,432,647 are 3 and 7 modulo 16, and 1,909,268,553 is
/// its value. Seed 8 draws 2,162,952, which is 0 modulo 12, a start: 537,014,280
/// is 8 modulo 16, and 2,791,531,049 is 9 modulo 16, but 1 modulo 8.
#[test]
fn first_records_are_those_computed_by_hand() {
    for (seed, records, steps) in [
        (1, 2, "part 1 5, look 1"),
        (3, 1, "send 3 7 1909268553"),
        (8, 1, "start 8 1"),
    ] {
        assert_eq!(made_up_log(seed, records), log_of(steps), "seed {seed}");
    }
    assert_eq!(made_up_log(3, 1), [0x04, 3, 7, 0x49, 0x20, 0xCD, 0x71]);
}

/// A record drawn anew: its kind is "1 plus the draw modulo 12", its body
/// "modulo 16 for a rank and 8 for a host; a send's value is one whole draw".
fn drawn_record(pass: &mut MadeUp) -> Vec<u8> {
    let (kind, _, body) = KINDS[pass.draw() as usize % 12];
    let mut record = vec![kind];
    for &field in body {
        let draw = pass.draw();
        match field {
            "h" => record.push((draw % 8) as u8),
            "value" => record.extend(draw.to_le_bytes()),
            _ => record.push((draw % 16) as u8),
        }
    }
    record
}

#[test]
fn every_record_is_what_its_draws_give() {
    for seed in SEEDS {
        let log = made_up_log(seed, 20_000);
        let mut pass = MadeUp::new(seed).unwrap();
        let mut rest = &log[..];
        for record in 0..20_000 {
            let drawn = drawn_record(&mut pass);
            assert!(rest.starts_with(&drawn), "seed {seed}, {record}");
            rest = &rest[drawn.len()..];
        }
        assert!(rest.is_empty());
    }
}

/// Counts whose 7 times is 3 or 5 more than 2 to the 32, the 64 and the 65.
const WRAPPING: [u64; 3] = [
    613_566_757,
    2_635_249_153_387_078_803,
    5_270_498_306_774_157_605,
];

#[test]
fn each_check_is_given_in_its_case_and_order() {
    let answer = |seed, records, room| made_up(seed, records, &mut vec![UNTOUCHED; room]);
    for (records, room) in [(0, 0), (1, 7), (1, 6), (3, 0), (u64::MAX, 64)] {
        assert_eq!(answer(0, records, room), Err(NotMade::SeedZero));
    }
    for seed in SEEDS {
        assert_eq!(answer(seed, 0, 0), Ok(0));
        for records in [1, 2, 3, 100] {
            let room = 7 * records as usize;
            assert!(answer(seed, records, room).is_ok());
            assert!(answer(seed, records, room + 1).is_ok());
            assert_eq!(answer(seed, records, room - 1), Err(NotMade::BufferShort));
            assert_eq!(answer(seed, records, 0), Err(NotMade::BufferShort));
        }
        for records in WRAPPING.into_iter().chain([u64::MAX]) {
            assert_eq!(answer(seed, records, 64), Err(NotMade::BufferShort));
        }
    }
}

#[test]
fn checks_have_the_numbers_of_the_paper() {
    let told = [NotMade::SeedZero, NotMade::BufferShort].map(|check| check.to_string());
    assert_eq!(
        told,
        [
            "refused with 26: the seed is zero",
            "refused with 27: the buffer is shorter than 7 times the count",
        ]
    );
}

#[test]
fn a_refusal_writes_no_byte() {
    for (seed, records) in [(0, 0), (0, 1), (0, 100), (1, 10), (1, u64::MAX)] {
        let mut buffer = [UNTOUCHED; 69];
        assert!(made_up(seed, records, &mut buffer).is_err());
        assert_eq!(buffer, [UNTOUCHED; 69]);
    }
}

/// Whatever was in the buffer before, and however long it is.
#[test]
fn the_buffer_beyond_the_log_is_untouched() {
    for seed in SEEDS {
        for records in 0..50 {
            let log = made_up_log(seed, records);
            for (before, more) in [(UNTOUCHED, 0), (!UNTOUCHED, 9)] {
                let mut buffer = vec![before; 7 * records + more];
                let length = made_up(seed, records as u64, &mut buffer).unwrap();
                assert_eq!(buffer[..length], log);
                assert!(buffer[length..].iter().all(|&byte| byte == before));
            }
        }
    }
}

#[test]
fn a_pass_goes_on_from_the_word_that_is_left() {
    let mut buffer = [UNTOUCHED; 7 * 40];
    for seed in SEEDS {
        for first in 0..20 {
            let mut pass = MadeUp::new(seed).unwrap();
            let mut log = Vec::new();
            for records in [first, 20 - first, 0, 20] {
                // A buffer that is refused costs the pass no draw.
                let refused = pass.write_records(records + 1, &mut buffer[..7 * records as usize]);
                assert_eq!(refused, Err(NotMade::BufferShort));
                let length = pass.write_records(records, &mut buffer).unwrap();
                log.extend_from_slice(&buffer[..length]);
            }
            assert_eq!(log, made_up_log(seed, 40));
        }
    }
}

/// Counts on both sides of what goes to an output at a time.
#[test]
fn an_output_gets_the_same_bytes() {
    for records in [0, 1, 9_361, 9_362, 9_363, 18_724, 18_725, 30_000] {
        let mut written = Vec::new();
        let mut pass = MadeUp::new(7).unwrap();
        pass.write_to(records, &mut written).unwrap();
        assert!(written == made_up_log(7, records as usize), "{records}");
    }
}

#[test]
fn an_output_without_room_is_told() {
    let log = made_up_log(7, 20_000);
    let mut room = vec![UNTOUCHED; log.len() - 1];
    let mut pass = MadeUp::new(7).unwrap();
    assert!(pass.write_to(20_000, &mut room[..]).is_err());
    assert!(room == log[..room.len()]);
}
