//! A log of looks at a full desk, where each rank has messages of many senders
//! unread: one of them looks, takes the message that was sent first, and gets
//! another one. Every record is accepted.

use crate::pass::Pass;
use engine::{Mail, Rank, Step};

/// So many records belong together: a look, a take and a send.
const SERVED_BY: usize = 3;

/// The log of a seed with at least so many records.
pub fn looks_log(records: usize, seed: u64) -> Vec<u8> {
    let mut pass = Pass::joined(Rank::COUNT as u8, Mail::LIMIT..=Mail::LIMIT, seed);
    while pass.desk.mail().unread() < Mail::LIMIT {
        let b = pass.any_rank();
        send_to(&mut pass, b);
    }
    for _ in 0..records.div_ceil(SERVED_BY) {
        let r = pass.any_rank();
        serve(&mut pass, r);
    }
    pass.log
}

/// A rank looks and takes from the rank that is named.
fn serve(pass: &mut Pass, r: Rank) {
    pass.record(Step::Look { r });
    let oldest = pass.desk.mail().oldest_sender_to(r);
    let a = oldest.expect("the rank has messages unread");
    pass.record(Step::Take { b: r, a });
    send_to(pass, r);
}

/// A message to a rank from any other.
fn send_to(pass: &mut Pass, b: Rank) {
    let further = 1 + pass.bits.below(Rank::COUNT as u32 - 1) as u8;
    let a = Rank((b.0 + further) % Rank::COUNT as u8);
    let value = pass.bits.next_bits();
    pass.record(Step::Send { a, b, value });
}
