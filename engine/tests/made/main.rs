//! The programs that write a made-up pass, paper 02, Change 1, the proved one
//! and the Rust one: the bytes of passes against the engine's generator, what
//! is told of wrong arguments, and outputs that fail or whose reader goes away.

mod arguments;
mod faults;
#[path = "../shared/made_up_log.rs"]
mod made_up_log;
mod passes;
mod program;
#[path = "../shared/proved_program.rs"]
mod proved_program;
