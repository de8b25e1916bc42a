//! Stored cells past the last cell of the picture: an entry of a part is wrong, or an extent.

use alloc::format;
use alloc::string::String;

use super::header::Header;
use super::{fault, Test};
use crate::MOST_CELLS;

/// The entries met that put a stored cell past the last cell.
pub(super) struct Beyond<'a> {
    header: &'a Header,
    /// The cells of the picture, at least 1.
    cells: u64,
    /// The fault of the first.
    first: Option<(usize, String)>,
    /// Whether no single entry can be wrong.
    several: bool,
    /// The highest position.
    highest: u64,
}

impl<'a> Beyond<'a> {
    /// None met yet.
    pub(super) fn new(header: &'a Header) -> Beyond<'a> {
        Beyond {
            header,
            cells: header.cells(),
            first: None,
            several: false,
            highest: 0,
        }
    }

    /// Whether a position is past the last cell.
    pub(super) fn is(&self, position: u64) -> bool {
        position >= self.cells
    }

    /// By how much the highest position met is past the last cell.
    pub(super) fn past(&self) -> u64 {
        self.highest.saturating_sub(self.cells - 1)
    }

    /// Meets the entry at `at`, which `says` that a stored cell is at a position past the last cell.
    pub(super) fn meet(&mut self, position: u64, at: usize, says: impl Fn() -> String) {
        self.highest = self.highest.max(position);
        if self.first.is_none() {
            let last = self.cells - 1;
            let message = format!("{}; the last cell is at position {last}", says());
            self.first = Some((at, message));
        }
    }

    /// Meets an entry after others: where one of them was met here, it is not the reason for this one, so that more than one is wrong.
    pub(super) fn meet_other(&mut self, position: u64, at: usize, says: impl Fn() -> String) {
        self.several |= self.first.is_some();
        self.meet(position, at, says);
    }

    /// Holds that one wrong entry alone would be found otherwise.
    pub(super) fn never_one(&mut self) {
        self.several = true;
    }

    /// Tells what was found in the parts. An extent is wrong where all entries agree with each other and no single one can be wrong.
    pub(super) fn told(self, found: Test) -> Test {
        let Some((at, message)) = self.first else {
            return found;
        };
        let highest = self.highest;
        if found.is_err() || !self.several || highest >= MOST_CELLS.into() {
            return fault(at, message);
        }
        let last = self.cells - 1;
        let message = format!(
            "the last stored cell is at position {highest}; by the extents the last cell is at position {last}"
        );
        fault(self.header.too_small_at(), message)
    }
}
