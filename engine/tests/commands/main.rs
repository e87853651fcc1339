//! `./run` as a user meets it: wrong command lines, text logs in the shapes
//! that editors give them, made-up passes, and the building of what has
//! changed.

mod building;
#[path = "../shared/feigned_program.rs"]
mod feigned_program;
mod made;
#[path = "../shared/made_up_program.rs"]
mod made_up_program;
#[path = "../shared/proved_program.rs"]
mod proved_program;
#[path = "../shared/release_programs.rs"]
mod release_programs;
mod script;
mod texts;
mod usage;
