//! Where the proved program is that makes the library's calls.

/// Where it is built.
pub const TIMING: &str = concat!(
    env!("CARGO_MANIFEST_DIR"),
    "/../crates/test_timing/out/test_timing"
);
