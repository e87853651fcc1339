//! The records of ranks that move, all accepted, with each of their outcomes.

use crate::program::{assert_told, log_of};

/// Moves with no await, one and two; sends to a mover and to an arrival; heeds
/// with nothing on the lane and with something; and at last a restart.
const STEPS: &str = "\
    start 0 0, move 0 4, land 0, start 1 1, start 2 1, call 0 1, route 0 1, call 2 1, \
    route 2 1, send 0 1 10, send 1 0 20, send 1 0 21, send 1 2 30, move 1 3, send 0 1 11, \
    heed 0 1, heed 2 1, call 0 1, route 0 1, route 0 1, send 0 1 12, drain 1 0, drain 1 0, \
    drain 1 0, drain 1 2, land 1, take 1 0, move 1 0, heed 0 1, drain 1 0, drain 1 0, \
    land 1, take 1 0, move 1 7, land 1, move 1 7, land 1";

/// What is told of them.
const TOLD: &str = "\
0 01 0 0 1 0
    start 0 0: rank 0 starts on host 0; its vmid is 0.1: host 0, number 1.
3 06 0 4 1 0
    move 0 4: rank 0 begins its move to host 4: the old process is its mover, the new one, 4.1, its arrival.
    The mover has no await: rank 0 can land at once.
6 09 0 0 0 0
    land 0: rank 0 lands: the arrival gets the mover's list and is the running process now; no message is in its list.
8 01 0 1 1 0
    start 1 1: rank 1 starts on host 1; its vmid is 1.1: host 1, number 1.
11 01 0 1 2 0
    start 2 1: rank 2 starts on host 1; its vmid is 1.2: host 1, number 2.
14 02 0 1 1 0
    call 0 1: rank 0 calls rank 1; the call is posted to 1.1, the vmid that rank 0's table has for it.
17 03 0 0 1 1
    route 0 1: rank 0's call reaches 1.1, rank 1's current end: calls between the two close, and a plain line stands both ways.
20 02 0 1 1 0
    call 2 1: rank 2 calls rank 1; the call is posted to 1.1, the vmid that rank 2's table has for it.
23 03 0 0 1 1
    route 2 1: rank 2's call reaches 1.1, rank 1's current end: calls between the two close, and a plain line stands both ways.
26 04 0 1 0 0
    send 0 1 10: rank 0 sends 10 to rank 1; 1 message of the pair is unread.
33 04 0 1 0 0
    send 1 0 20: rank 1 sends 20 to rank 0; 1 message of the pair is unread.
40 04 0 2 0 0
    send 1 0 21: rank 1 sends 21 to rank 0; 2 messages of the pair are unread.
47 04 0 1 0 0
    send 1 2 30: rank 1 sends 30 to rank 2; 1 message of the pair is unread.
54 06 0 3 1 2
    move 1 3: rank 1 begins its move to host 3: the old process is its mover, the new one, 3.1, its arrival.
    The mover has 2 awaits: 2 lanes to it must be drained, each up to its end marker, before rank 1 lands.
57 04 0 2 0 0
    send 0 1 11: rank 0 has not heeded the move of rank 1 yet, and sends 11 to the mover; 2 messages of the pair are unread.
64 07 0 2 0 0
    heed 0 1: rank 0 heeds the move of rank 1 and closes its line; its end marker is on the lane to the mover, behind all that it sent.
    2 messages from rank 1 go from the lane to rank 0's list.
67 07 0 1 0 0
    heed 2 1: rank 2 heeds the move of rank 1 and closes its line; its end marker is on the lane to the mover, behind all that it sent.
    1 message from rank 1 goes from the lane to rank 2's list.
70 02 0 1 1 0
    call 0 1: rank 0 calls rank 1; the call is posted to 1.1, the vmid that rank 0's table has for it.
73 03 0 1 3 1
    route 0 1: rank 0's call does not reach rank 1, whose current end is 3.1; it is posted there now, to be routed again.
76 03 0 0 3 1
    route 0 1: rank 0's call reaches 3.1, rank 1's current end: calls between the two close, and a plain line stands both ways.
79 04 0 3 0 0
    send 0 1 12: rank 0 sends 12 to the arrival of rank 1; 3 messages of the pair are unread.
86 08 0 0 10 1
    drain 1 0: the mover of rank 1 reads 10, with running number 1, from the lane of rank 0 into its list.
89 08 0 0 11 2
    drain 1 0: the mover of rank 1 reads 11, with running number 2, from the lane of rank 0 into its list.
92 08 0 1 0 0
    drain 1 0: the mover of rank 1 reads the end marker of rank 0: nothing more comes on that lane, and the await is over.
95 08 0 1 0 0
    drain 1 2: the mover of rank 1 reads the end marker of rank 2: nothing more comes on that lane, and the await is over.
98 09 0 2 0 0
    land 1: rank 1 lands: the arrival gets the mover's list and is the running process now; 2 messages are in its list.
100 05 0 10 2 1
    take 1 0: rank 1 takes 10, the first unread message from rank 0, with running number 1; 2 messages of the pair are left.
103 06 0 0 2 1
    move 1 0: rank 1 begins its move to host 0: the old process is its mover, the new one, 0.2, its arrival.
    The mover has 1 await: 1 lane to it must be drained, up to the end marker, before rank 1 lands.
106 07 0 0 0 0
    heed 0 1: rank 0 heeds the move of rank 1 and closes its line; its end marker is on the lane to the mover, behind all that it sent.
    Nothing from rank 1 was on the lane to rank 0.
109 08 0 0 12 3
    drain 1 0: the mover of rank 1 reads 12, with running number 3, from the lane of rank 0 into its list.
112 08 0 1 0 0
    drain 1 0: the mover of rank 1 reads the end marker of rank 0: nothing more comes on that lane, and the await is over.
115 09 0 2 0 0
    land 1: rank 1 lands: the arrival gets the mover's list and is the running process now; 2 messages are in its list.
117 05 0 11 1 2
    take 1 0: rank 1 takes 11, the first unread message from rank 0, with running number 2; 1 message of the pair is left.
120 06 0 7 1 0
    move 1 7: rank 1 begins its move to host 7: the old process is its mover, the new one, 7.1, its arrival.
    The mover has no await: rank 1 can land at once.
123 09 0 1 0 0
    land 1: rank 1 lands: the arrival gets the mover's list and is the running process now; 1 message is in its list.
125 06 0 7 2 0
    move 1 7: rank 1 begins its restart on host 7, where it runs: the old process is its mover, the new one, 7.2, its arrival.
    The mover has no await: rank 1 can land at once.
128 09 0 1 0 0
    land 1: rank 1 lands: the arrival gets the mover's list and is the running process now; 1 message is in its list.
pair 0 1 0 0 1 0
pair 1 0 0 0 2 0
pair 1 2 0 0 1 0
end
    37 records: 37 accepted, none refused.
    No move is open.
    From rank 0 to rank 1: 1 unread, 1 in the list of the current end.
    From rank 1 to rank 0: 2 unread, 2 in the list of the current end.
    From rank 1 to rank 2: 1 unread, 1 in the list of the current end.
";

#[test]
fn moves_heeds_drains_and_landings_are_told() {
    assert_told("moving.log", &log_of(STEPS), TOLD);
}
