//! `./run --words`: what it tells of each kind of record and of each refusal,
//! its summary, and that it holds on long logs and in bad places. Lines of
//! words are indented; the others are the printed run.

mod broken_program;
#[path = "../shared/check_table.rs"]
mod check_table;
mod faults;
#[path = "../shared/feigned_program.rs"]
mod feigned_program;
mod inputs;
mod joining;
mod long_log;
mod looking;
mod moving;
#[path = "../shared/peak_memory.rs"]
mod peak_memory;
mod program;
#[path = "../shared/proved_program.rs"]
mod proved_program;
mod refused;
#[path = "../shared/refused_records.rs"]
mod refused_records;
mod summary;
