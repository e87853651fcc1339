//! What an accepted record did, in the words of paper 01, "The step log", with
//! the running number of a message that is drained or taken, and whose message
//! is the oldest at a look.

use super::counted::{messages, of_the_pair, verb};
use super::open_moves::{End, OpenMoves};
use engine::{Host, Rank, Step, Values};

/// What to say of a step and its values, with the moves that were open before
/// it: a sentence or two, a line each.
pub fn sentences(step: Step, values: Values, moves: &OpenMoves) -> String {
    let [v1, v2, _] = values;
    match step {
        Step::Start { r, h } => start(r, h, v1, v2),
        Step::Call { a, b } => call(a, b, v1, v2),
        Step::Route { a, b } => route(a, b, values),
        Step::Send { a, b, value } => send(a, b, value, v1, moves.end_reached(a, b)),
        Step::Take { b, a } => take(b, a, values),
        Step::Move { r, .. } => begin_move(r, values, moves.is_present_host(r, v1)),
        Step::Heed { b, r } => heed(b, r, v1),
        Step::Drain { r, s } => drain(r, s, values),
        Step::Land { r } => land(r, v1),
        Step::Part { a, b } => part(a, b, v1, v2),
        Step::End { r } => format!("rank {} ends; it keeps its last vmid.", r.0),
        Step::Look { r } => look(r, v1),
    }
}

fn start(Rank(r): Rank, Host(h): Host, host: u32, number: u32) -> String {
    format!(
        "rank {r} starts on host {h}; its vmid is {host}.{number}: host {host}, number {number}."
    )
}

fn call(Rank(a): Rank, Rank(b): Rank, host: u32, number: u32) -> String {
    format!(
        "rank {a} calls rank {b}; the call is posted to {host}.{number}, \
         the vmid that rank {a}'s table has for it."
    )
}

fn route(Rank(a): Rank, Rank(b): Rank, [outcome, host, number]: Values) -> String {
    match outcome {
        0 => format!(
            "rank {a}'s call reaches {host}.{number}, rank {b}'s current end: \
             calls between the two close, and a plain line stands both ways."
        ),
        1 => format!(
            "rank {a}'s call does not reach rank {b}, whose current end is {host}.{number}; \
             it is posted there now, to be routed again."
        ),
        _ => format!("rank {b} has ended; rank {a}'s call closes, and no line stands."),
    }
}

fn send(Rank(a): Rank, Rank(b): Rank, value: u32, unread: u32, end: End) -> String {
    let sent = match end {
        End::Running => format!("rank {a} sends {value} to rank {b}"),
        End::Mover => format!(
            "rank {a} has not heeded the move of rank {b} yet, and sends {value} to the mover"
        ),
        End::Arrival => format!("rank {a} sends {value} to the arrival of rank {b}"),
    };
    format!("{sent}; {} unread.", of_the_pair(unread))
}

fn take(Rank(b): Rank, Rank(a): Rank, [value, unread, number]: Values) -> String {
    let left = of_the_pair(unread);
    format!(
        "rank {b} takes {value}, the first unread message from rank {a}, \
         with running number {number}; {left} left."
    )
}

fn begin_move(Rank(r): Rank, [host, number, awaits]: Values, restarts: bool) -> String {
    let awaited = match awaits {
        0 => format!("The mover has no await: rank {r} can land at once."),
        1 => format!(
            "The mover has 1 await: 1 lane to it must be drained, up to the end marker, \
             before rank {r} lands."
        ),
        _ => format!(
            "The mover has {awaits} awaits: {awaits} lanes to it must be drained, \
             each up to its end marker, before rank {r} lands."
        ),
    };
    let begun = match restarts {
        true => format!("rank {r} begins its restart on host {host}, where it runs"),
        false => format!("rank {r} begins its move to host {host}"),
    };
    format!(
        "{begun}: the old process is its mover, \
         the new one, {host}.{number}, its arrival.\n{awaited}"
    )
}

fn heed(Rank(b): Rank, Rank(r): Rank, moved: u32) -> String {
    let moved = match moved {
        0 => format!("Nothing from rank {r} was on the lane to rank {b}."),
        _ => format!(
            "{} from rank {r} {} from the lane to rank {b}'s list.",
            messages(moved),
            verb(moved, "goes", "go")
        ),
    };
    format!(
        "rank {b} heeds the move of rank {r} and closes its line; its end marker is on the lane \
         to the mover, behind all that it sent.\n{moved}"
    )
}

fn drain(Rank(r): Rank, Rank(s): Rank, [outcome, value, number]: Values) -> String {
    match outcome {
        0 => format!(
            "the mover of rank {r} reads {value}, with running number {number}, \
             from the lane of rank {s} into its list."
        ),
        _ => format!(
            "the mover of rank {r} reads the end marker of rank {s}: \
             nothing more comes on that lane, and the await is over."
        ),
    }
}

fn land(Rank(r): Rank, listed: u32) -> String {
    format!(
        "rank {r} lands: the arrival gets the mover's list and is the running process now; \
         {} {} in its list.",
        messages(listed),
        verb(listed, "is", "are")
    )
}

fn part(Rank(a): Rank, Rank(b): Rank, towards_a: u32, towards_b: u32) -> String {
    let moved = match (towards_a, towards_b) {
        (0, 0) => "nothing was on the lanes".to_owned(),
        (0, count) => into_list(count, b),
        (count, 0) => into_list(count, a),
        _ => {
            let others = messages(towards_b);
            format!("{}, {others} to rank {b}'s", into_list(towards_a, a))
        }
    };
    format!("rank {a} and rank {b} part, and no line stands between them; {moved}.")
}

fn into_list(count: u32, rank: u8) -> String {
    let go = verb(count, "goes", "go");
    format!(
        "{} {go} from the lane to rank {rank}'s list",
        messages(count)
    )
}

fn look(Rank(r): Rank, sender: u32) -> String {
    format!(
        "rank {r} looks: of all messages unread by it, the one sent first is from rank {sender}."
    )
}
