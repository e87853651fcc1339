//! The text form of logs: how a text is read, that every log has a text that
//! gives it back, what is said of wrong lines, and the program `logtext`.

mod errors;
mod program;
mod reading;
mod round_trips;
#[path = "../shared/step_log.rs"]
mod step_log;
