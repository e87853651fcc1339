//! The listing of paper 01, "The printed run", with the running numbers of paper
//! 02, Change 4.

/// The steps that the paper lists.
pub const STEPS: &str = "start 0 0, start 1 1, call 0 1, route 0 1, send 0 1 500, move 1 2, \
    send 0 1 501, heed 0 1, call 0 1, route 0 1, route 0 1, send 0 1 502, land 1, drain 1 0, \
    drain 1 0, drain 1 0, land 1, take 1 0";

/// What is printed for them: what paper 01 prints, and the running numbers as v3
/// of the take and of the drains that move a message.
pub const LISTING: &str = "\
0 01 0 0 1 0
3 01 0 1 1 0
6 02 0 1 1 0
9 03 0 0 1 1
12 04 0 1 0 0
19 06 0 2 1 1
22 04 0 2 0 0
29 07 0 0 0 0
32 02 0 1 1 0
35 03 0 1 2 1
38 03 0 0 2 1
41 04 0 3 0 0
48 09 19 0 0 0
50 08 0 0 500 1
53 08 0 0 501 2
56 08 0 1 0 0
59 09 0 2 0 0
61 05 0 500 2 1
pair 0 1 0 0 1 1
end
";
