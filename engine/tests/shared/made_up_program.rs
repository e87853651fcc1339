//! Where the proved program is that writes the logs of made-up passes.

/// Where it is built.
pub const MADE_UP: &str = concat!(env!("CARGO_MANIFEST_DIR"), "/../crates/made_up/out/made_up");
