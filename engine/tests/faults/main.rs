//! What the proved program, and `./run` around it, do where the input cannot be
//! read or the run cannot be written, where its reader goes away, and while the
//! input is still open; the same of made-up passes, which can be without end.
//! Every wait has a limit: a program that is not done by then is ended, and its
//! test fails.

#[path = "../shared/feigned_program.rs"]
mod feigned_program;
mod made;
#[path = "../shared/made_up_program.rs"]
mod made_up_program;
#[path = "../shared/peak_memory.rs"]
mod peak_memory;
#[path = "../shared/printed_run.rs"]
mod printed_run;
mod program;
#[path = "../shared/proved_program.rs"]
mod proved_program;
mod records;
#[path = "../shared/release_programs.rs"]
mod release_programs;
mod running;
mod script;
