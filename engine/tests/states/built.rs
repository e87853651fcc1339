//! A state of the list as the second engine holds it.

use crate::list::Listed;
use engine::{Await, Call, Host, Line, Message, Rank, RunningNumber, Snapshot, Standing, Vmid};

fn byte(number: u32) -> u8 {
    u8::try_from(number).unwrap()
}

fn vmid(host: u32, number: u32) -> Vmid {
    Vmid(Host(byte(host)), u16::try_from(number).unwrap())
}

/// One more message is unread; the count sent stays.
fn put(state: &mut Snapshot, [a, b]: [u32; 2], place: u32, value: u32, number: RunningNumber) {
    state.messages.push(Message {
        sender: Rank(byte(a)),
        receiver: Rank(byte(b)),
        value,
        place: byte(place),
        number,
    });
}

/// The same with the next number of its pair, which has then sent one more. For
/// a rank above 15 there is no count, and the number is 1.
fn append(state: &mut Snapshot, [a, b]: [u32; 2], place: u32, value: u32) {
    let row = state.sent.get_mut(a as usize);
    let number = match row.and_then(|row| row.get_mut(b as usize)) {
        Some(sent) => {
            *sent += 1;
            *sent
        }
        None => 1,
    };
    put(state, [a, b], place, value, number);
}

fn change(state: &mut Snapshot, line: &str) {
    let mut fields = line.split(' ');
    let word = fields.next().unwrap();
    let numbers: Vec<u32> = fields.map(|field| field.parse().unwrap()).collect();
    let at = |index: usize| numbers[index] as usize;
    match (word, numbers.as_slice()) {
        ("fresh", []) => *state = Snapshot::fresh(),
        ("running", &[_, h, n]) => state.standings[at(0)] = Standing::Running(vmid(h, n)),
        ("moving", &[_, h, n, k, m]) => {
            let (mover, arrival) = (vmid(h, n), vmid(k, m));
            state.standings[at(0)] = Standing::Moving { mover, arrival };
        }
        ("ended", &[_, h, n]) => state.standings[at(0)] = Standing::Ended(vmid(h, n)),
        ("drawn", &[_, n]) => state.drawn[at(0)] = n,
        ("table", &[_, _, h, n]) => state.tables[at(0)][at(1)] = vmid(h, n),
        ("tables", &[_, h, n]) => {
            for row in &mut state.tables {
                row[at(0)] = vmid(h, n);
            }
        }
        ("call", &[_, b, h, n]) => {
            let (called, posted) = (Rank(byte(b)), vmid(h, n));
            state.calls[at(0)] = Some(Call { called, posted });
        }
        ("plain", [_, _]) => state.lines[at(0)][at(1)] = Line::Plain,
        ("notice", [_, _]) => state.lines[at(0)][at(1)] = Line::Notice,
        ("unheeded", [_, _]) => state.awaits[at(0)][at(1)] = Await::Unheeded,
        ("marked", [_, _]) => state.awaits[at(0)][at(1)] = Await::Marked,
        ("message", &[a, b, place, value]) => append(state, [a, b], place, value),
        ("messages", &[count, a, b, place, value]) => {
            (0..count).for_each(|_| append(state, [a, b], place, value));
        }
        ("numbered", &[a, b, place, value, number]) => put(state, [a, b], place, value, number),
        ("sent", &[_, _, n]) => state.sent[at(0)][at(1)] = n,
        _ => panic!("no change is written {line}"),
    }
}

/// The state: the first of the list starts at a fresh desk, every other at the
/// first.
pub fn snapshot(listed: &Listed, first: &Listed) -> Snapshot {
    let mut state = Snapshot::fresh();
    if listed.name != first.name {
        first
            .changes
            .iter()
            .for_each(|line| change(&mut state, line));
    }
    listed
        .changes
        .iter()
        .for_each(|line| change(&mut state, line));
    state
}
