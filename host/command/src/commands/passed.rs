//! The names that a walk passed over, in words.

use crate::arguments::{Given, Opt};
use crate::commands::walk::Walk;

/// What is said of a link to a folder.
pub(super) const LINK: &str = "a symbolic link to a folder, not followed";

/// What is said of a manifest in a folder.
pub(super) const MANIFEST: &str = "a manifest, left alone; 'manifest verify' compares it";

/// How many names a walk passed over.
#[derive(Clone, Copy, Debug, Default, PartialEq, Eq)]
pub(super) struct Passed {
    /// Hidden ones.
    pub(super) hidden: usize,
    /// Those of files that do not match `--name`.
    pub(super) unmatched: usize,
}

impl Passed {
    /// Those of a walk.
    pub(super) fn of(walk: &Walk) -> Passed {
        Passed {
            hidden: walk.hidden,
            unmatched: walk.unmatched,
        }
    }

    /// What a summary says of them at its end; `verb` is what `--all` does to hidden ones.
    pub(super) fn sentence(&self, verb: &str) -> String {
        let hidden = match self.hidden {
            0 => String::new(),
            1 => format!("; 1 hidden name passed over (--all {verb} it)"),
            many => format!("; {many} hidden names passed over (--all {verb} them)"),
        };
        let unmatched = match self.unmatched {
            0 => String::new(),
            1 => "; 1 file passed over whose name does not match --name".to_string(),
            many => format!("; {many} files passed over whose names do not match --name"),
        };
        format!("{hidden}{unmatched}")
    }
}

/// What is said of a folder in which no file was found.
pub(super) fn no_files(given: &Given) -> &'static str {
    if given.has(&Opt::NAME) {
        "no files whose names match --name"
    } else {
        "no files"
    }
}

/// A number of things.
pub(super) fn counted(number: usize, thing: &str) -> String {
    match number {
        1 => format!("1 {thing}"),
        _ => format!("{number} {thing}s"),
    }
}
