//! The records of ranks that stay where they are, all accepted, with each of
//! their outcomes.

use crate::program::{assert_told, log_of};

/// Crossing calls; parts with messages on no lane, on either and on both; a call
/// of a rank that has ended.
const STEPS: &str = "\
    start 0 0, start 1 1, call 0 1, call 1 0, route 0 1, part 1 0, call 0 1, route 0 1, \
    send 0 1 4294967295, part 0 1, call 0 1, route 0 1, send 1 0 20, send 1 0 21, part 0 1, \
    call 0 1, route 0 1, send 0 1 12, send 1 0 22, part 0 1, look 1, take 1 0, take 1 0, \
    take 0 1, take 0 1, take 0 1, end 1, call 0 1, route 0 1";

/// What is told of them.
const TOLD: &str = "\
0 01 0 0 1 0
    start 0 0: rank 0 starts on host 0; its vmid is 0.1: host 0, number 1.
3 01 0 1 1 0
    start 1 1: rank 1 starts on host 1; its vmid is 1.1: host 1, number 1.
6 02 0 1 1 0
    call 0 1: rank 0 calls rank 1; the call is posted to 1.1, the vmid that rank 0's table has for it.
9 02 0 0 1 0
    call 1 0: rank 1 calls rank 0; the call is posted to 0.1, the vmid that rank 1's table has for it.
12 03 0 0 1 1
    route 0 1: rank 0's call reaches 1.1, rank 1's current end: calls between the two close, and a plain line stands both ways.
15 0A 0 0 0 0
    part 1 0: rank 1 and rank 0 part, and no line stands between them; nothing was on the lanes.
18 02 0 1 1 0
    call 0 1: rank 0 calls rank 1; the call is posted to 1.1, the vmid that rank 0's table has for it.
21 03 0 0 1 1
    route 0 1: rank 0's call reaches 1.1, rank 1's current end: calls between the two close, and a plain line stands both ways.
24 04 0 1 0 0
    send 0 1 4294967295: rank 0 sends 4294967295 to rank 1; 1 message of the pair is unread.
31 0A 0 0 1 0
    part 0 1: rank 0 and rank 1 part, and no line stands between them; 1 message goes from the lane to rank 1's list.
34 02 0 1 1 0
    call 0 1: rank 0 calls rank 1; the call is posted to 1.1, the vmid that rank 0's table has for it.
37 03 0 0 1 1
    route 0 1: rank 0's call reaches 1.1, rank 1's current end: calls between the two close, and a plain line stands both ways.
40 04 0 1 0 0
    send 1 0 20: rank 1 sends 20 to rank 0; 1 message of the pair is unread.
47 04 0 2 0 0
    send 1 0 21: rank 1 sends 21 to rank 0; 2 messages of the pair are unread.
54 0A 0 2 0 0
    part 0 1: rank 0 and rank 1 part, and no line stands between them; 2 messages go from the lane to rank 0's list.
57 02 0 1 1 0
    call 0 1: rank 0 calls rank 1; the call is posted to 1.1, the vmid that rank 0's table has for it.
60 03 0 0 1 1
    route 0 1: rank 0's call reaches 1.1, rank 1's current end: calls between the two close, and a plain line stands both ways.
63 04 0 2 0 0
    send 0 1 12: rank 0 sends 12 to rank 1; 2 messages of the pair are unread.
70 04 0 3 0 0
    send 1 0 22: rank 1 sends 22 to rank 0; 3 messages of the pair are unread.
77 0A 0 1 1 0
    part 0 1: rank 0 and rank 1 part, and no line stands between them; 1 message goes from the lane to rank 0's list, 1 message to rank 1's.
80 0C 0 0 0 0
    look 1: rank 1 looks: of all messages unread by it, the one sent first is from rank 0.
82 05 0 4294967295 1 1
    take 1 0: rank 1 takes 4294967295, the first unread message from rank 0, with running number 1; 1 message of the pair is left.
85 05 0 12 0 2
    take 1 0: rank 1 takes 12, the first unread message from rank 0, with running number 2; no message of the pair is left.
88 05 0 20 2 1
    take 0 1: rank 0 takes 20, the first unread message from rank 1, with running number 1; 2 messages of the pair are left.
91 05 0 21 1 2
    take 0 1: rank 0 takes 21, the first unread message from rank 1, with running number 2; 1 message of the pair is left.
94 05 0 22 0 3
    take 0 1: rank 0 takes 22, the first unread message from rank 1, with running number 3; no message of the pair is left.
97 0B 0 0 0 0
    end 1: rank 1 ends; it keeps its last vmid.
99 02 0 1 1 0
    call 0 1: rank 0 calls rank 1; the call is posted to 1.1, the vmid that rank 0's table has for it.
102 03 0 2 0 0
    route 0 1: rank 1 has ended; rank 0's call closes, and no line stands.
end
    29 records: 29 accepted, none refused.
    No move is open.
    Nothing is unread.
";

#[test]
fn starts_calls_sends_takes_and_parts_are_told() {
    assert_told("joining.log", &log_of(STEPS), TOLD);
}
