//! The programs that `./run` builds for itself, where it looks for them.

use std::env;
use std::process::{Command, Stdio};

/// Builds them there, and the proved programs that a `./run` with these
/// arguments needs anew if they are old, so that a `./run` of a test has
/// nothing to build and says nothing of it.
pub fn build_release(arguments: &[&str]) {
    let built = Command::new(env::var_os("CARGO").unwrap_or("cargo".into()))
        .args(["build", "--release", "--offline", "--quiet"])
        .args(["--bin", "command-line", "--bin", "logtext"])
        .current_dir(env!("CARGO_MANIFEST_DIR"))
        .status();
    assert!(built.unwrap().success(), "the programs cannot be built");
    let ran = Command::new(concat!(env!("CARGO_MANIFEST_DIR"), "/../run"))
        .args(arguments)
        .stdin(Stdio::null())
        .stdout(Stdio::null())
        .stderr(Stdio::null())
        .status();
    assert!(
        ran.unwrap().success(),
        "the proved programs cannot be built"
    );
}
