//! Holds README.md and docs/ to what they show. A fenced block is of one of
//! these kinds, and nothing else is allowed:
//!
//! - `console`: lines `$ COMMAND`, each followed by what the command prints
//!   when it is run from the repository's root; where it fails, its standard
//!   error comes next and then a line `[exit status N]`;
//! - `text FILE`: the whole content of a file of the repository;
//! - `rust FILE`, `rattle FILE`, `antt FILE`: lines that stand in that file.
//!
//! A command in running text is one that a `console` block shows, or the
//! beginning of one.

mod console;
mod document;
mod held;
#[path = "../shared/made_up_program.rs"]
mod made_up_program;
mod performance;
#[path = "../shared/proved_program.rs"]
mod proved_program;
mod quotes;
#[path = "../shared/release_programs.rs"]
mod release_programs;
mod running_text;
#[path = "../shared/table.rs"]
mod table;
mod tables;
#[path = "../shared/timing_program.rs"]
mod timing_program;
