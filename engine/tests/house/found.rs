//! The public laws that no proof cites, though they were steps of one. They are
//! stated and proved as before.

/// Those that were steps of a proof, or said what a definition comes to in one
/// of its cases, and that the check finds by itself now.
pub const FOUND: [&str; 33] = [
    "base.specs.Laws.Below.count_failed",
    "base.specs.Laws.Below.count_passed",
    "base.specs.Laws.Stores.any_default",
    "desk.specs.Laws.Desk.roster_does",
    "desk.specs.Laws.Settled.settle_accepted",
    "desk.specs.Laws.Settled.settle_refused",
    "generator_record.specs.Laws.Body.one_field",
    "generator_record.specs.Laws.Body.second_within",
    "generator_record.specs.Laws.Body.three_fields",
    "generator_record.specs.Laws.Body.two_fields",
    "kind_route.specs.Laws.Routed.route_arrives",
    "kind_route.specs.Laws.Routed.route_ended",
    "kind_route.specs.Laws.Withdrawn.routed_there",
    "made_up_argument.specs.Laws.Argument.digit_least",
    "made_up_argument.specs.Laws.Argument.digit_most",
    "made_up_pass.specs.Laws.Ending.ends_told",
    "made_up_pass.specs.Laws.Piece.piece_less",
    "print_lines.specs.Laws.Parts.one_line",
    "replay_course.specs.Laws.Course.used_fits",
    "replay_course.specs.Laws.Ends.less_read",
    "replay_course.specs.Laws.Ends.less_turn",
    "replay_stage.specs.Laws.Given.given_bytes",
    "replay_stage.specs.Laws.Given.given_counts",
    "replay_stage.specs.Laws.Given.given_failed",
    "roster.specs.Laws.Loaded.copy_none",
    "roster.specs.Laws.Loaded.fill_from",
    "roster.specs.Laws.Loaded.fill_joined",
    "roster.specs.Laws.Loaded.fill_none",
    "roster.specs.Laws.Loaded.fill_process",
    "steps.specs.Laws.Refused.accepted_is_no_refusal",
    "transit.proofs.Laws.Oldest.oldest_start",
    "transit.proofs.Laws.Search.walk_over",
    "transit.specs.Laws.Loads.empty_none",
];

/// Those that were steps of a proof of code that is written otherwise now: the
/// library, a type or a more general law stands in their place there.
pub const KEPT: [&str; 16] = [
    "base.specs.Laws.Lists.read_slot",
    "print_buffer.specs.Laws.Buffer.one_moved",
    "print_lines.specs.Laws.Parts.pair_parts",
    "print_page.specs.Laws.Put.two_bytes",
    "print_page.specs.Laws.Text.decimal_eight",
    "print_page.specs.Laws.Text.decimal_pair",
    "print_page.specs.Laws.Text.numbers_two",
    "protocol.specs.Laws.Ranks.every_rank_fails",
    "record.specs.Laws.Record.kind_least",
    "soundness_pairs.specs.Laws.Walk.cell_fails",
    "steps_in_place.specs.Laws.Step.on_cut",
    "steps_in_place.specs.Laws.Step.on_unknown",
    "transit.specs.Laws.Promise.left_unread",
    "transit.specs.Laws.Sent.counted_kept",
    "transit.specs.Laws.Sent.keep_all",
    "transit.specs.Laws.Sent.keep_next",
];
