//! A run printed by the proved program, as it prints it.

use crate::failure::Failure;
use crate::input::Log;
use crate::running::{hand_over, spawn, unreadable, Program, Reader};
use std::io::Read;
use std::path::Path;
use std::process::{Command, Stdio};
use std::sync::mpsc;
use std::thread;

/// Replays a log onto standard output.
pub fn replay(program: &Path, log: Log) -> Result<(), Failure> {
    match log {
        Log::Whole(file) => {
            let mut command = Command::new(program);
            let child = spawn(&mut command, Stdio::from(file), Stdio::inherit())?;
            let program = Program::watched(child, Reader::Beyond);
            program.end().map(|_| ())
        }
        Log::Handed(bytes) => replay_handed(program, bytes),
    }
}

/// The log may still be open when the run has ended, after a 2 or 3: then
/// nobody waits for its end.
fn replay_handed(program: &Path, log: Box<dyn Read + Send>) -> Result<(), Failure> {
    let mut child = spawn(&mut Command::new(program), Stdio::piped(), Stdio::inherit())?;
    let input = child.stdin.take().expect("standard input is piped");
    let (unread, told) = mpsc::channel();
    thread::spawn(move || {
        hand_over(log, input, |piece| match piece {
            Ok(_) => true,
            Err(error) => unread.send(error).is_ok(),
        });
    });
    Program::watched(child, Reader::Beyond).end()?;
    told.try_recv()
        .map_or(Ok(()), |error| Err(unreadable(&error)))
}
