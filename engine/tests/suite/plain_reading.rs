//! Paper 01, "The step log", carried out sentence by sentence on the plain
//! state with its one list of messages, and paper 02, Changes 4 and 6, with it.
//! Random lists run on it and on the engine: answers and whole states must be
//! equal after each step.

use crate::plain_table::applying;
use engine::proposals::{Mix, Proposer};
use engine::refusal::{number_of, values_of};
use engine::{Await, Call, Desk, Host, Line, Message, Rank, Snapshot, Standing, Values, Vmid};

/// Messages from a sender, or from everybody, to a receiver go from one place
/// to another; how many is given.
fn relocate(state: &mut Snapshot, sender: Option<usize>, receiver: usize, from: u8, to: u8) -> u32 {
    let mut moved = 0;
    for message in &mut state.messages {
        let from_sender = sender.is_none_or(|sender| message.sender.index() == sender);
        if from_sender && message.receiver.index() == receiver && message.place == from {
            message.place = to;
            moved += 1;
        }
    }
    moved
}

fn is_between(message: &Message, sender: usize, receiver: usize) -> bool {
    message.sender.index() == sender && message.receiver.index() == receiver
}

fn unread_between(state: &Snapshot, sender: usize, receiver: usize) -> u32 {
    let unread = state
        .messages
        .iter()
        .filter(|m| is_between(m, sender, receiver));
    unread.count() as u32
}

fn draw(state: &mut Snapshot, host: usize) -> Vmid {
    state.drawn[host] += 1;
    Vmid(Host(host as u8), state.drawn[host] as u16)
}

fn host_and_number(vmid: Vmid) -> (u32, u32) {
    (u32::from(vmid.host().0), u32::from(vmid.number()))
}

/// What an accepted record does; its ranks and host are named x and y.
fn carry_out(state: &mut Snapshot, record: &[u8]) -> Values {
    let x = usize::from(record[1]);
    let y = usize::from(record.get(2).copied().unwrap_or(0));
    match record[0] {
        0x01 => {
            let vmid = draw(state, y);
            state.standings[x] = Standing::Running(vmid);
            (0..16).for_each(|holder| state.tables[holder][x] = vmid);
            let (host, number) = host_and_number(vmid);
            [host, number, 0]
        }
        0x02 => {
            let posted = state.tables[x][y];
            let called = Rank(y as u8);
            state.calls[x] = Some(Call { called, posted });
            let (host, number) = host_and_number(posted);
            [host, number, 0]
        }
        0x03 => route(state, x, y),
        0x04 => {
            state.sent[x][y] += 1;
            state.messages.push(Message {
                number: state.sent[x][y],
                sender: Rank(x as u8),
                receiver: Rank(y as u8),
                value: u32::from_le_bytes(record[3..].try_into().unwrap()),
                place: if state.lines[x][y] == Line::Plain {
                    3
                } else {
                    1
                },
            });
            [unread_between(state, x, y), 0, 0]
        }
        0x05 => {
            let of_pair = state
                .messages
                .iter()
                .enumerate()
                .filter(|(_, m)| is_between(m, y, x));
            let (first, _) = of_pair.min_by_key(|&(index, m)| (m.place, index)).unwrap();
            let taken = state.messages.remove(first);
            [taken.value, unread_between(state, y, x), taken.number]
        }
        0x06 => begin_move(state, x, y),
        0x07 => {
            let moved = relocate(state, Some(y), x, 3, 2);
            state.lines[x][y] = Line::None;
            state.awaits[y][x] = Await::Marked;
            [moved, 0, 0]
        }
        0x08 => {
            let mut lane = state
                .messages
                .iter_mut()
                .filter(|m| is_between(m, y, x) && m.place == 1);
            if let Some(first) = lane.next() {
                first.place = 0;
                return [0, first.value, first.number];
            }
            state.awaits[x][y] = Await::None;
            [1, 0, 0]
        }
        0x09 => {
            relocate(state, None, x, 0, 2);
            let arrival = state.standings[x].current_end().unwrap();
            state.standings[x] = Standing::Running(arrival);
            let listed = state
                .messages
                .iter()
                .filter(|m| m.receiver.index() == x && m.place == 2);
            [listed.count() as u32, 0, 0]
        }
        0x0A => {
            let towards = [
                relocate(state, Some(y), x, 3, 2),
                relocate(state, Some(x), y, 3, 2),
            ];
            (state.lines[x][y], state.lines[y][x]) = (Line::None, Line::None);
            [towards[0], towards[1], 0]
        }
        0x0B => {
            let last = state.standings[x].current_end().unwrap();
            state.standings[x] = Standing::Ended(last);
            [0; 3]
        }
        _ => {
            let mut unread = state.messages.iter().filter(|m| m.receiver.index() == x);
            let oldest = unread.next().unwrap();
            [oldest.sender.0.into(), 0, 0]
        }
    }
}

fn route(state: &mut Snapshot, a: usize, b: usize) -> Values {
    if state.standings[b].is_ended() {
        state.calls[a] = None;
        return [2, 0, 0];
    }
    let end = state.standings[b].current_end().unwrap();
    let (host, number) = host_and_number(end);
    let mut call = state.calls[a].unwrap();
    if call.posted == end {
        (state.lines[a][b], state.lines[b][a]) = (Line::Plain, Line::Plain);
        state.calls[a] = None;
        state.calls[b] = state.calls[b].filter(|call| call.called.index() != a);
        return [0, host, number];
    }
    state.tables[a][b] = end;
    call.posted = end;
    state.calls[a] = Some(call);
    [1, host, number]
}

fn begin_move(state: &mut Snapshot, r: usize, h: usize) -> Values {
    let arrival = draw(state, h);
    let mover = state.standings[r].current_end().unwrap();
    state.standings[r] = Standing::Moving { mover, arrival };
    relocate(state, None, r, 2, 0);
    relocate(state, None, r, 3, 1);
    for s in 0..16 {
        match state.lines[r][s] {
            Line::None => {}
            Line::Plain => {
                state.awaits[r][s] = Await::Unheeded;
                state.lines[s][r] = Line::Notice;
            }
            Line::Notice => {
                state.awaits[r][s] = Await::Marked;
                state.awaits[s][r] = Await::Marked;
            }
        }
        state.lines[r][s] = Line::None;
    }
    let awaits = state.awaits[r]
        .iter()
        .filter(|&&awaited| awaited != Await::None);
    let (host, number) = host_and_number(arrival);
    [host, number, awaits.count() as u32]
}

/// From a fresh desk.
fn compare(seed: u64, mix: Mix, steps: usize) {
    assert_eq!(Desk::fresh().snapshot(), Snapshot::fresh());
    compare_from(Snapshot::fresh(), seed, mix, steps);
}

/// From a sound state; how many steps got 28 is given.
fn compare_from(mut plain: Snapshot, seed: u64, mix: Mix, steps: usize) -> usize {
    let mut proposer = Proposer::new(seed, mix);
    let mut desk = Desk::from_snapshot(&plain).expect("the state is sound");
    let mut exhausted = 0;
    for _ in 0..steps {
        let step = proposer.propose(&desk);
        let mut record = Vec::new();
        step.write(&mut record);
        let answer = desk.step_sound(&record, 0).answer;
        let number = applying(&plain, &record).first().copied().unwrap_or(0);
        assert_eq!(number_of(&answer), number, "{step:?}");
        exhausted += usize::from(number == 28);
        let values = match number {
            0 => carry_out(&mut plain, &record),
            _ => [0; 3],
        };
        assert_eq!(values_of(&answer), values, "{step:?}");
        assert_eq!(desk.snapshot(), plain, "{step:?}");
        let rebuilt = Desk::from_snapshot(&plain).expect("the state is sound");
        assert_eq!(rebuilt.snapshot(), plain);
    }
    exhausted
}

#[test]
fn broad_lists_agree_with_the_plain_reading() {
    (11..14).for_each(|seed| compare(seed, Mix::BROAD, 8_000));
}

#[test]
fn lists_with_restarts_agree_with_the_plain_reading() {
    (31..34).for_each(|seed| compare(seed, Mix::RESTARTS, 8_000));
}

#[test]
fn lists_with_looks_agree_with_the_plain_reading() {
    (51..54).for_each(|seed| compare(seed, Mix::LOOKS, 8_000));
}

/// Mostly refused steps: the order of the checks matters most here.
const STRAYS: Mix = Mix {
    stray_one_in: 2,
    ..Mix::BROAD
};

#[test]
fn stray_lists_agree_with_the_plain_reading() {
    (21..24).for_each(|seed| compare(seed, STRAYS, 8_000));
}

/// Every pair can send one message more, and then gets 28.
#[test]
fn lists_with_spent_pairs_agree_with_the_plain_reading() {
    let mix = Mix {
        stray_one_in: 2,
        ..Mix::TRAFFIC
    };
    for seed in 41..44 {
        let mut spent = Snapshot::fresh();
        spent.sent = [[u32::MAX - 1; 16]; 16];
        let exhausted = compare_from(spent, seed, mix, 8_000);
        assert!(exhausted >= 50, "seed {seed}: {exhausted}");
    }
}
