//! What can happen to 1,024 messages of one pair: each scenario brings them
//! about, stops where the pair's line shows them, and has all taken in order.

use crate::script::Script;

/// "At most 1,024 are unread in the whole desk."
pub const FULL: u32 = 1_024;

/// Counts about the ends of eight bits and of nine, and the last two.
const COUNTS: [u32; 7] = [255, 256, 257, 511, 512, 1_023, FULL];

type Scenario = fn(&mut Script);

/// All scenarios, each with its name.
pub const SCENARIOS: [(&str, Scenario); 14] = [
    ("sent", sent),
    ("taken", taken),
    ("turned-over", turned_over),
    ("parted", |script| parted(script, "part S R: 0 0 1024 0")),
    ("parted-by-receiver", |script| {
        parted(script, "part R S: 0 1024 0 0");
    }),
    ("moved-from-lane", |script| {
        moved_from_lane(script, "move R 2: 0 2 1 1");
    }),
    ("restarted-from-lane", |script| {
        moved_from_lane(script, "move R 1: 0 1 2 1");
    }),
    ("moved-from-list", |script| {
        moved_from_list(script, "move R 2: 0 2 1 0");
    }),
    ("restarted-from-list", |script| {
        moved_from_list(script, "move R 1: 0 1 2 0");
    }),
    ("sender-moved", sender_moved),
    ("arrival-heeded", arrival_heeded),
    ("sent-on-notice", sent_on_notice),
    ("at-four-places", at_four_places),
    ("ended", ended),
];

fn join(script: &mut Script) {
    script.steps("start S 0: 0 0 1 0, start R 1: 0 1 1 0, call S R: 0 1 1 0, route S R: 0 0 1 1");
}

fn fill_lane(script: &mut Script) {
    join(script);
    script.sends(FULL);
}

fn fill_list(script: &mut Script) {
    fill_lane(script);
    script.steps("part S R: 0 0 1024 0");
}

fn take_all(script: &mut Script) {
    script.takes(FULL);
    script.steps("take R S: 22 0 0 0, look R: 22 0 0 0");
}

fn sent(script: &mut Script) {
    join(script);
    let mut sent = 0;
    for count in COUNTS {
        script.sends(count - sent);
        script.stop([0, 0, 0, count]);
        sent = count;
    }
    take_all(script);
}

/// Nobody can send any more, until a message is taken; then any pair can.
fn taken(script: &mut Script) {
    fill_lane(script);
    script.steps("send S R 1: 24 0 0 0, send R S 2: 24 0 0 0, look R: 0 S 0 0, look S: 22 0 0 0");
    script.steps("start T 2: 0 2 1 0, call T S: 0 0 1 0, route T S: 0 0 0 1");
    script.steps("send T S 3: 24 0 0 0, send S T 4: 24 0 0 0, take S R: 22 0 0 0");
    script.takes(1);
    script.stop([0, 0, 0, FULL - 1]);
    script.steps("send R S 5: 0 1 0 0, send S R 6: 24 0 0 0, take S R: 0 5 0 1");
    script.steps("send T S 7: 0 1 0 0, send S R 8: 24 0 0 0, take S T: 0 7 0 1");
    script.sends(1);
    let mut left = FULL;
    for count in COUNTS.into_iter().rev() {
        script.takes(left - count);
        script.stop([0, 0, 0, count]);
        left = count;
    }
    script.takes(left);
    script.steps("take R S: 22 0 0 0, look R: 22 0 0 0, send S R 9: 0 1 0 0, take R S: 0 9 0 1026");
}

/// A message leaves and another comes, more often than the pair has messages.
fn turned_over(script: &mut Script) {
    fill_lane(script);
    for _ in 0..FULL + 6 {
        script.takes(1);
        script.sends(1);
    }
    script.stop([0, 0, 0, FULL]);
    take_all(script);
}

fn parted(script: &mut Script, part: &str) {
    fill_lane(script);
    script.steps(part);
    script.stop([0, 0, FULL, 0]);
    script.steps("send S R 1: 15 0 0 0, call S R: 0 1 1 0, route S R: 0 0 1 1");
    script.steps("send S R 2: 24 0 0 0, part S R: 0 0 0 0");
    take_all(script);
}

fn moved_from_lane(script: &mut Script, departure: &str) {
    fill_lane(script);
    script.steps(departure);
    script.stop([0, FULL, 0, 0]);
    script.steps("send S R 1: 24 0 0 0, take R S: 10 0 0 0, look R: 10 0 0 0");
    script.steps("heed S R: 0 0 0 0, land R: 19 0 0 0");
    let mut drained = 0;
    for count in COUNTS {
        script.drains(drained..count);
        script.stop([count, FULL - count, 0, 0]);
        drained = count;
    }
    script.steps("land R: 19 0 0 0, drain R S: 0 1 0 0, drain R S: 20 0 0 0, land R: 0 1024 0 0");
    script.stop([0, 0, FULL, 0]);
    take_all(script);
}

fn moved_from_list(script: &mut Script, departure: &str) {
    fill_list(script);
    script.steps(departure);
    script.stop([FULL, 0, 0, 0]);
    script.steps("take R S: 10 0 0 0, end R: 10 0 0 0, drain R S: 20 0 0 0, land R: 0 1024 0 0");
    script.stop([0, 0, FULL, 0]);
    take_all(script);
}

fn sender_moved(script: &mut Script) {
    fill_lane(script);
    script.steps("move S 2: 0 2 1 1, send S R 1: 10 0 0 0, send R S 2: 24 0 0 0");
    script.stop([0, 0, 0, FULL]);
    script.steps("heed R S: 0 1024 0 0, heed R S: 17 0 0 0");
    script.stop([0, 0, FULL, 0]);
    script.steps("drain S R: 0 1 0 0, land S: 0 0 0 0");
    take_all(script);
}

/// All are sent to the arrival, which has them in its list before it lands.
fn arrival_heeded(script: &mut Script) {
    script.steps("start S 0: 0 0 1 0, start R 1: 0 1 1 0, move R 2: 0 2 1 0, call S R: 0 1 1 0");
    script.steps("route S R: 0 1 2 1, route S R: 0 0 2 1");
    script.sends(FULL);
    script.stop([0, 0, 0, FULL]);
    script.steps("move S 3: 0 3 1 1, heed R S: 0 1024 0 0, take R S: 10 0 0 0");
    script.stop([0, 0, FULL, 0]);
    script.steps("land R: 0 1024 0 0, drain S R: 0 1 0 0, land S: 0 0 0 0");
    take_all(script);
}

/// The last go on the lane to the mover, which has drained many of the first.
fn sent_on_notice(script: &mut Script) {
    join(script);
    script.sends(1_000);
    script.steps("move R 2: 0 2 1 1");
    script.drains(0..300);
    script.sends(24);
    script.stop([300, 724, 0, 0]);
    script.steps("send S R 1: 24 0 0 0");
    script.drains(300..FULL);
    script.stop([FULL, 0, 0, 0]);
    script.steps("drain R S: 21 0 0 0, send S R 2: 24 0 0 0, heed S R: 0 0 0 0");
    script.steps("call S R: 0 1 1 0, route S R: 0 1 2 1, route S R: 0 0 2 1, send S R 3: 24 0 0 0");
    script.steps("land R: 19 0 0 0, drain R S: 0 1 0 0, drain R S: 20 0 0 0, land R: 0 1024 0 0");
    script.stop([0, 0, FULL, 0]);
    script.takes(1);
    script.sends(1);
    script.stop([0, 0, FULL - 1, 1]);
    take_all(script);
}

/// 256 are in the list and 256 on the lane when the receiver moves. 256 more go
/// to the arrival, which has them in its list as the sender moves too, and the
/// sender sends the last ones from where it has landed.
fn at_four_places(script: &mut Script) {
    join(script);
    script.sends(256);
    script.steps("part S R: 0 0 256 0, call S R: 0 1 1 0, route S R: 0 0 1 1");
    script.sends(256);
    script.stop([0, 0, 256, 256]);
    script.steps("move R 2: 0 2 1 1, heed S R: 0 0 0 0");
    script.steps("call S R: 0 1 1 0, route S R: 0 1 2 1, route S R: 0 0 2 1");
    script.sends(256);
    script.stop([256, 256, 0, 256]);
    script.steps("move S 3: 0 3 1 1, heed R S: 0 256 0 0, drain S R: 0 1 0 0, land S: 0 0 0 0");
    script.steps("call S R: 0 2 1 0, route S R: 0 0 2 1");
    script.sends(256);
    script.stop([256; 4]);
    script.steps("send S R 1: 24 0 0 0, land R: 19 0 0 0");
    script.drains(256..512);
    script.stop([512, 0, 256, 256]);
    script.steps("drain R S: 0 1 0 0, land R: 0 768 0 0");
    script.stop([0, 0, 768, 256]);
    script.steps("part R S: 0 256 0 0");
    script.stop([0, 0, FULL, 0]);
    take_all(script);
}

/// The receiver cannot end before it has taken all; the sender can.
fn ended(script: &mut Script) {
    fill_list(script);
    script.steps("end R: 23 0 0 0, look R: 0 S 0 0, take S R: 22 0 0 0, look S: 22 0 0 0");
    script.steps("start T 2: 0 2 1 0, take T S: 22 0 0 0, take R T: 22 0 0 0, look T: 22 0 0 0");
    script.steps("end S: 0 0 0 0, call R S: 0 0 1 0, route R S: 0 2 0 0, end R: 23 0 0 0");
    script.stop([0, 0, FULL, 0]);
    script.takes(FULL - 1);
    script.stop([0, 0, 1, 0]);
    script.steps("end R: 23 0 0 0");
    script.takes(1);
    script.steps("take R S: 22 0 0 0, look R: 22 0 0 0, end R: 0 0 0 0, take R S: 9 0 0 0");
}
