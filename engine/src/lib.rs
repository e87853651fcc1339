//! The panel message desk of paper 01 as paper 02 changes it: a second engine,
//! written from the papers' text alone, whose printed runs other implementations
//! are compared with. `Snapshot` is the plain state, `Desk` the same state kept
//! for speed.

#![forbid(unsafe_code)]
#![warn(missing_docs)]

pub mod bits;
mod by_pair;
pub mod checks;
pub mod desk;
pub mod field;
mod lines;
pub mod made_up;
pub mod mail;
pub mod names;
pub mod proposals;
pub mod rank_set;
pub mod record;
pub mod refusal;
mod refusal_words;
pub mod run;
mod sending_order;
mod slots;
pub mod snapshot;
pub mod sound;
pub mod standard;
pub mod step;
pub mod text;
mod transitions;

pub use desk::Desk;
pub use made_up::{made_up, MadeUp, NotMade};
pub use mail::{Content, Mail, PairCount, Place, RunningNumber};
pub use names::{Host, Rank, Vmid};
pub use record::{Kind, Step};
pub use refusal::{Answer, Refusal, Values};
pub use run::{run_slice, run_stream, RunError};
pub use snapshot::{Await, Call, Line, Message, Snapshot, Standing};
pub use sound::{broken_clauses, is_sound, Clause};
pub use step::{step, Outcome};
