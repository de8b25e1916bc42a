//! How many files came out how.

use crate::commands::manifest::state::State;
use crate::failure::{DONE, FILE, REFUSED};
use crate::json::Object;

/// How many files came out how.
#[derive(Clone, Copy, Debug, Default, PartialEq, Eq)]
pub(super) struct Tally {
    unchanged: usize,
    re_encoded: usize,
    changed: usize,
    missing: usize,
    new: usize,
    unread: usize,
    hidden: usize,
}

impl Tally {
    /// No file yet, and so many hidden names passed over.
    pub(super) fn new(hidden: usize) -> Tally {
        Tally {
            hidden,
            ..Tally::default()
        }
    }

    /// Counts a file.
    pub(super) fn count(&mut self, state: &State) {
        let number = match state {
            State::Unchanged => &mut self.unchanged,
            State::ReEncoded(_) => &mut self.re_encoded,
            State::Changed(_) => &mut self.changed,
            State::Missing => &mut self.missing,
            State::New => &mut self.new,
            State::Unread(_) => &mut self.unread,
        };
        *number += 1;
    }

    /// The counts with their names.
    fn counts(&self) -> [(&'static str, usize); 6] {
        [
            ("unchanged", self.unchanged),
            ("re-encoded", self.re_encoded),
            ("changed", self.changed),
            ("missing", self.missing),
            ("new", self.new),
            ("unread", self.unread),
        ]
    }

    /// All files, of the manifest or of the folder.
    fn files(&self) -> usize {
        self.counts().iter().map(|(_, count)| count).sum()
    }

    /// Whether all files are unchanged.
    pub(super) fn all_unchanged(&self) -> bool {
        self.files() == self.unchanged
    }

    /// The exit status.
    pub(super) fn status(&self) -> u8 {
        match (self.unread, self.changed + self.missing + self.new) {
            (0, 0) => DONE,
            (0, _) => REFUSED,
            _ => FILE,
        }
    }

    /// The summary.
    pub(super) fn sentence(&self) -> String {
        let counts = self.counts().map(|(name, count)| match name {
            "unread" => format!("{count} not read"),
            name => format!("{count} {name}"),
        });
        let (files, passed) = (files(self.files()), passed_over(self.hidden, "compares"));
        format!("{files}: {}{passed}", counts.join(", "))
    }

    /// The summary as an object.
    pub(super) fn object(&self) -> Object {
        let mut counts = Object::new();
        counts.number("files", self.files() as u64);
        for (name, count) in self.counts() {
            counts.number(&name.replace('-', "_"), count as u64);
        }
        counts.number("hidden", self.hidden as u64);
        let mut object = Object::new();
        object.object("summary", &counts);
        object
    }
}

/// A number of files.
pub(super) fn files(number: usize) -> String {
    format!("{number} {}", if number == 1 { "file" } else { "files" })
}

/// What is said of hidden names, and what `--all` would do with them.
pub(super) fn passed_over(hidden: usize, does: &str) -> String {
    match hidden {
        0 => String::new(),
        1 => format!("; 1 hidden name passed over (--all {does} it)"),
        _ => format!("; {hidden} hidden names passed over (--all {does} them)"),
    }
}
