//! Passes as the programs write them, byte for byte what the generator makes.

use crate::made_up_log::made_up_log;
use crate::program::Program;

/// No record, a few, and on both sides of 9,362 and its multiples: so many are
/// sure to have room in 65,536 bytes.
const COUNTS: [usize; 13] = [
    0, 1, 2, 3, 9_361, 9_362, 9_363, 10_000, 18_723, 18_724, 18_725, 20_000, 28_087,
];

/// Small seeds, single bits, the seed of a sequence that is known outside, and
/// the greatest one.
fn seeds() -> impl Iterator<Item = u32> {
    let bits = (4..u32::BITS).step_by(3).map(|bit| 1 << bit);
    (1..=12).chain(bits).chain([2_463_534_242, u32::MAX])
}

#[test]
fn passes_of_many_seeds_and_counts_are_the_generators() {
    for program in Program::all() {
        for seed in seeds() {
            for count in COUNTS {
                let arguments = [seed.to_string(), count.to_string()];
                program.assert_writes(&arguments, &made_up_log(seed, count));
            }
        }
    }
}

#[test]
fn a_pass_of_a_million_records_is_the_generators() {
    let log = made_up_log(1, 1_000_000);
    for program in Program::all() {
        program.assert_writes(&["1", "1000000"], &log);
    }
}
