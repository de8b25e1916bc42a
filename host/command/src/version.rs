//! The version and what the program was built from, as build.rs finds them.

/// The version, that of include/radar_archive.h.
pub const VERSION: &str = env!("RADAR_ARCHIVE_VERSION");

/// The commit, "-dirty" after it where the tree had changes, or "not known".
const COMMIT: &str = env!("RADAR_ARCHIVE_COMMIT");

/// The identity of the toolchain that proved the engine, or "not known".
const TOOLCHAIN: &str = env!("RADAR_ARCHIVE_TOOLCHAIN");

/// What `--version` prints; the first line is for scripts.
pub fn told() -> String {
    format!("radar-archive {VERSION}\ncommit: {COMMIT}\ntoolchain: {TOOLCHAIN}\n")
}
