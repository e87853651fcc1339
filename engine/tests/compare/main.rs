//! Runs a second program on the same logs as this engine and compares what
//! they print: paper 01, "The printed run", every byte of it. The program is
//! the one that `REPLAY` names, else `../crates/replay/out/replay`.

mod alike;
#[path = "../shared/check_table.rs"]
mod check_table;
mod examples;
mod expected;
mod full_pair;
mod garbage;
mod limits;
mod log;
mod looks;
mod made_up;
#[path = "../shared/made_up_log.rs"]
mod made_up_log;
mod paper;
#[path = "../shared/plain_table.rs"]
mod plain_table;
#[path = "../shared/printed_run.rs"]
mod printed_run;
mod probes;
mod program;
#[path = "../shared/proved_program.rs"]
mod proved_program;
mod random;
mod restarts;
mod running_numbers;
mod script;
mod short_records;
#[path = "../shared/situations.rs"]
mod situations;
#[path = "../shared/step_log.rs"]
mod step_log;
mod tally;
mod two_checks;
mod window;
