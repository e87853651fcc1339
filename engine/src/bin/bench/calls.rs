//! The library's calls: what one costs on a state with so many messages
//! unread, by a program that makes it many times.

use crate::cost::Cost;
use crate::measure::{Folder, ROUNDS};
use crate::pass::Pass;
use crate::table;
use engine::{Rank, Step};
use std::path::Path;
use std::time::Duration;

/// A call, by its name for the table and by the byte that asks for it, and how
/// many times more often it is made than the slow ones.
#[derive(Clone, Copy)]
struct Call {
    name: &'static str,
    byte: u8,
    oftener: u32,
}

const CALLS: [Call; 4] = [
    Call {
        name: "`step`, by value",
        byte: 1,
        oftener: 1,
    },
    Call {
        name: "`step_lent`",
        byte: 2,
        oftener: 1,
    },
    Call {
        name: "`step_in_place`",
        byte: 4,
        oftener: 100,
    },
    IS_SOUND,
];

const IS_SOUND: Call = Call {
    name: "`is_sound`",
    byte: 3,
    oftener: 1,
};

/// How many messages are unread, a column for each.
const UNREAD: [usize; 3] = [0, 400, 1_000];

/// The rank of the step that is measured, a look, which leaves the state as it
/// is.
const LOOKING: Rank = Rank(0);

/// A call is made once for so many records of an input.
const RECORDS_A_CALL: usize = 40;

/// The table of the calls' times, by a program that makes them. They are made
/// the oftener, the more records an input has.
pub fn times(folder: &Folder, program: &Path, records: usize) -> Result<String, String> {
    let mut text = table::calls_header(UNREAD);
    let more = (records / RECORDS_A_CALL).max(1) as u32;
    for call in CALLS {
        let mut times = [0.0; UNREAD.len()];
        for (time, unread) in times.iter_mut().zip(UNREAD) {
            *time = microseconds(folder, program, call, unread, more)?;
        }
        text += &table::calls_row(call.name, times);
    }
    Ok(text)
}

/// The microseconds of a call with so many messages unread: the time of so
/// many calls more, by their number.
fn microseconds(
    folder: &Folder,
    program: &Path,
    call: Call,
    unread: usize,
    more: u32,
) -> Result<f64, String> {
    let more = more * call.oftener;
    let pass = with_unread(unread);
    let answer = answer(call, &pass);
    let few = 1 + more / 10;
    let mut best = [Cost::OF_NONE; 2];
    for _ in 0..ROUNDS {
        for (best, times) in best.iter_mut().zip([few, few + more]) {
            let input = [&[call.byte][..], &times.to_le_bytes(), &pass.log].concat();
            let (cost, printed) = folder.run(program, &input)?;
            if printed != sum(answer, times) {
                return Err(format!("{}: not what was asked for", program.display()));
            }
            *best = best.and(cost);
        }
    }
    let [short, long] = best.map(|cost| cost.time);
    Ok(micros(long.saturating_sub(short)) / f64::from(more))
}

/// All ranks joined, and so many messages between them unread.
fn with_unread(unread: usize) -> Pass {
    let mut pass = Pass::joined(Rank::COUNT as u8, unread..=unread, unread as u64);
    while pass.desk.mail().unread() < unread {
        pass.exchange();
    }
    pass
}

/// What a call answers: 1 for a sound state, and for a look its number and its
/// rank together.
fn answer(call: Call, pass: &Pass) -> u64 {
    if call.byte == IS_SOUND.byte {
        return 1;
    }
    let sender = pass.desk.mail().oldest_sender_to(LOOKING);
    match pass.desk.check(Step::Look { r: LOOKING }) {
        Ok(()) => sender.map_or(0, |rank| u64::from(rank.0)),
        Err(refusal) => u64::from(refusal.number()),
    }
}

/// What the program prints for a call that gives this answer so many times.
fn sum(answer: u64, times: u32) -> Vec<u8> {
    format!("{}\n", answer * u64::from(times)).into_bytes()
}

fn micros(time: Duration) -> f64 {
    time.as_secs_f64() * 1e6
}
