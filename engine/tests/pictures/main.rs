//! `./run --picture`: the stored pictures are what it makes, they are
//! well-formed and show what the runs have, and it says what it can't draw.

mod contents;
mod differing;
mod drawing;
#[path = "../shared/feigned_program.rs"]
mod feigned_program;
mod long_logs;
mod outputs;
#[path = "../shared/proved_program.rs"]
mod proved_program;
mod ranges;
mod stored;
mod xml;
