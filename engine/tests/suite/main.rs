//! The tests of the second engine, one module for each idea: paper 01's
//! listing and edges, every refusal, soundness, order within pairs, and logs
//! of any bytes and any length; paper 02's made-up passes, restarts, full pairs,
//! running numbers and looks.

#[path = "../shared/check_table.rs"]
mod check_table;
mod edges;
mod full_pair;
mod listing;
mod logs;
mod long_input;
mod looks;
mod made_up;
#[path = "../shared/made_up_log.rs"]
mod made_up_log;
mod plain_reading;
#[path = "../shared/plain_table.rs"]
mod plain_table;
#[path = "../shared/printed_run.rs"]
mod printed_run;
mod program;
mod random_steps;
mod refusals;
#[path = "../shared/refused_records.rs"]
mod refused_records;
mod restarts;
mod running_numbers;
#[path = "../shared/situations.rs"]
mod situations;
mod spent_pair;
#[path = "../shared/step_log.rs"]
mod step_log;
mod text;
mod unsound;
