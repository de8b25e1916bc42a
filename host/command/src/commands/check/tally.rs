//! How many files came out how.

use crate::commands::check::told::Told;
use crate::commands::passed::{counted, Passed};
use crate::failure::{DONE, FILE, REFUSED};
use crate::json::Object;

/// How many files came out how.
#[derive(Clone, Copy, Debug, Default, PartialEq, Eq)]
pub(super) struct Tally {
    pub(super) accepted: usize,
    pub(super) refused: usize,
    pub(super) unread: usize,
    pub(super) passed: Passed,
}

impl Tally {
    /// Counts a file.
    pub(super) fn count(&mut self, told: &Told<'_>) {
        match told {
            Told::Accepted { .. } => self.accepted += 1,
            Told::Refused { .. } => self.refused += 1,
            Told::Unread { .. } => self.unread += 1,
        }
    }

    /// All files.
    fn files(&self) -> usize {
        self.accepted + self.refused + self.unread
    }

    /// The exit status.
    pub(super) fn status(&self) -> u8 {
        match (self.unread, self.refused) {
            (0, 0) => DONE,
            (0, _) => REFUSED,
            _ => FILE,
        }
    }

    /// The summary.
    pub(super) fn sentence(&self) -> String {
        let Tally {
            accepted,
            refused,
            unread,
            passed,
        } = self;
        let files = counted(self.files(), "file");
        let passed = passed.sentence("checks");
        format!("{files}: {accepted} accepted, {refused} refused, {unread} not read{passed}")
    }

    /// The summary as an object.
    pub(super) fn object(&self) -> Object {
        let mut counts = Object::new();
        counts
            .number("files", self.files() as u64)
            .number("accepted", self.accepted as u64)
            .number("refused", self.refused as u64)
            .number("unread", self.unread as u64)
            .number("hidden", self.passed.hidden as u64)
            .number("unmatched", self.passed.unmatched as u64);
        let mut object = Object::new();
        object.object("summary", &counts);
        object
    }
}
