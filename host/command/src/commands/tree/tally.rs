//! How many files came out how.

use crate::commands::passed::{counted, Passed};
use crate::failure::{Failure, DONE, FILE, REFUSED};
use crate::numbers::grouped;

/// How many files came out how, and their bytes.
#[derive(Clone, Copy, Debug, Default, PartialEq, Eq)]
pub(super) struct Tally {
    changed: usize,
    left: usize,
    refused: usize,
    failed: usize,
    before: u64,
    after: u64,
    passed: Passed,
}

impl Tally {
    /// No file yet, but names that were passed over.
    pub(super) fn after(passed: Passed) -> Tally {
        Tally {
            passed,
            ..Tally::default()
        }
    }

    /// Counts a file that is done, with its bytes before and after.
    pub(super) fn done(&mut self, changed: bool, before: usize, after: usize) {
        if changed {
            self.changed += 1;
        } else {
            self.left += 1;
        }
        self.before += before as u64;
        self.after += after as u64;
    }

    /// Counts a file that was refused, or could not be read or written.
    pub(super) fn failed(&mut self, failure: &Failure) {
        match failure {
            Failure::Refused { .. } => self.refused += 1,
            _ => self.failed += 1,
        }
    }

    /// The exit status.
    pub(super) fn status(&self) -> u8 {
        match (self.failed, self.refused) {
            (0, 0) => DONE,
            (0, _) => REFUSED,
            _ => FILE,
        }
    }

    /// The summary.
    pub(super) fn sentence(&self) -> String {
        let Tally {
            changed,
            left,
            refused,
            failed,
            ..
        } = self;
        let files = counted(changed + left + refused + failed, "file");
        let (before, after) = (grouped(self.before), grouped(self.after));
        let passed = self.passed.sentence("takes");
        format!(
            "{files}: {changed} changed, {left} left as they were, {refused} refused, {failed} not read or written; \
             {before} bytes before, {after} after{passed}"
        )
    }
}
