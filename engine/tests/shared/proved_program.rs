//! Where the proved program is, for the tests that need it.

use std::env;
use std::ffi::OsString;
use std::io::{self, Write};
use std::path::PathBuf;

/// Where the proved program is built.
pub const USUAL_PLACE: &str = concat!(env!("CARGO_MANIFEST_DIR"), "/../crates/replay/out/replay");

/// The program at a place. Where there is none, this fails if
/// `REPLAY_REQUIRED` is 1, and otherwise says that the test is skipped.
pub fn program_at(place: impl Into<OsString>) -> Option<PathBuf> {
    let place = PathBuf::from(place.into());
    if let Ok(path) = place.canonicalize() {
        return Some(path);
    }
    let missing = format!(
        "there is no proved program at {}; ./run builds it",
        place.display()
    );
    let required = env::var_os("REPLAY_REQUIRED").is_some_and(|value| value == "1");
    assert!(!required, "{missing}");
    // Written directly: what a passing test prints is not shown.
    let _ = writeln!(io::stderr(), "test SKIPPED: {missing}");
    None
}
