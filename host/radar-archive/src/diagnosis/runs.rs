//! Kind 1, and the rules of a run that kinds 1 and 5 share.

use alloc::format;

use super::beyond::Beyond;
use super::header::Header;
use super::{fault, many, number, Test};
use crate::header::HEADER_LENGTH;

/// Tests the first part of kind 1.
pub(super) fn parts(file: &[u8], header: &Header) -> Test {
    runs(header, |runs| pairs(file, header, runs))
}

/// Tests the pairs of kind 1.
fn pairs(file: &[u8], header: &Header, runs: &mut Runs) -> Test {
    let mut empties_before = 0;
    for index in 0..header.first as usize {
        let at = HEADER_LENGTH + 8 * index;
        let last = number(file, at, 4);
        let empties = number(file, at + 4, 4);
        // The cells through the end of the run before, so one more than its last position.
        let before = runs.through;
        if last < before {
            let (left, left_last) = (index - 1, before - 1);
            let message =
                format!("run {index} ends at position {last}, not after run {left}, which ends at {left_last}");
            return fault(at, message);
        }
        if empties < empties_before {
            let empties = many(empties, "empty cell");
            let left = index - 1;
            let message = format!(
                "run {index} counts {empties} through its end, fewer than the {empties_before} through run {left}"
            );
            return fault(at + 4, message);
        }
        runs.add(last + 1 - before, empties - empties_before, at)?;
        empties_before = empties;
    }
    runs.end()
}

/// Tests runs that a closure gives in their order.
pub(super) fn runs(header: &Header, test: impl FnOnce(&mut Runs) -> Test) -> Test {
    let mut runs = Runs {
        header,
        count: 0,
        through: 0,
        held: 0,
        beyond: Beyond::new(header),
    };
    let found = test(&mut runs);
    // One entry that puts a run's end elsewhere makes the runs hold other cells than the header says.
    runs.beyond.never_one();
    runs.beyond.told(found)
}

/// The runs met so far.
pub(super) struct Runs<'a> {
    header: &'a Header,
    /// The runs.
    count: u64,
    /// The cells through the end of the last run.
    through: u64,
    /// The stored cells.
    held: u64,
    beyond: Beyond<'a>,
}

impl Runs<'_> {
    /// Tests the next run, of at least one cell. Its pair stands at `at`.
    pub(super) fn add(&mut self, cells: u64, empties: u64, at: usize) -> Test {
        let index = self.count;
        self.through += cells;
        let end = self.through - 1;
        if self.beyond.is(end) {
            self.beyond
                .meet(end, at, || format!("run {index} ends at position {end}"));
        }
        if empties >= cells {
            let cells = many(cells, "cell");
            let message = format!("run {index} has no stored cell: {cells}, {empties} empty");
            return fault(at + 4, message);
        }
        if index > 0 && empties == 0 {
            let left = index - 1;
            let message =
                format!("run {index} follows run {left} without an empty cell between them");
            return fault(at + 4, message);
        }
        self.held += cells - empties;
        let stored = self.header.stored;
        if self.held > stored {
            let held = many(self.held, "stored cell");
            let message =
                format!("the runs through run {index} hold {held}; the header says {stored}");
            return fault(at, message);
        }
        self.count += 1;
        Ok(())
    }

    /// Tests that the runs hold all stored cells. The byte is that of the first word without a cell.
    pub(super) fn end(&self) -> Test {
        let (rank, stored) = (self.held, self.header.stored);
        if rank == stored {
            return Ok(());
        }
        let held = many(rank, "stored cell");
        let message = format!(
            "the runs hold {held}, the header says {stored}; the word of rank {rank} has no cell"
        );
        fault(self.header.words_at as usize + 4 * rank as usize, message)
    }
}
