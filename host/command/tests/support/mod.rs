//! What the tests of the command share: a scratch folder, a run of the program, and what is said of its end.
#![allow(dead_code)] // each test crate uses a part

pub mod files;
pub mod folder;
pub mod json;
pub mod options;
pub mod outcome;
pub mod process;
pub mod sums;
pub mod trees;

pub use folder::Folder;
pub use outcome::Outcome;

/// The program under test.
pub const PROGRAM: &str = env!("CARGO_BIN_EXE_radar-archive");

/// The folder of the sample files.
pub const SAMPLES: &str = concat!(env!("CARGO_MANIFEST_DIR"), "/../../samples");

/// The words of the signal list; the index is the number.
pub const WORDS: [&str; 12] = [
    "accepted", "short", "kind", "setting", "extent", "counts", "body", "picture", "beyond",
    "unfit", "small", "other",
];
