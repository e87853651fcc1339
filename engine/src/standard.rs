//! The standard streams as plain files: the handles of the standard library
//! take an unreadable input for an empty one, and an unwritable output for a
//! full delivery. Paper 01's printed run must tell these apart.

use std::fs::File;
use std::io;
use std::os::fd::AsFd;

/// A standard stream as a plain file.
pub fn plain_file(stream: impl AsFd) -> io::Result<File> {
    stream.as_fd().try_clone_to_owned().map(File::from)
}
