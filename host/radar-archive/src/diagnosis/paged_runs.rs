//! Kind 5: level 0 by the rules of its runs, and the levels above it by their sums.

use alloc::format;

use super::header::Header;
use super::runs::{runs, Runs};
use super::{fault, many, number, Test};

/// Cells and empty cells of an entry.
type Pair = (u64, u64);

/// The entries of a level that has some, and its offset in the file.
#[derive(Clone, Copy)]
struct Level {
    entries: usize,
    at: usize,
}

impl Level {
    /// The offset of an entry.
    fn entry_at(&self, index: usize) -> usize {
        self.at + 8 * index
    }

    /// An entry.
    fn entry(&self, file: &[u8], index: usize) -> Pair {
        let at = self.entry_at(index);
        (number(file, at, 4), number(file, at + 4, 4))
    }

    /// The entry to the left in its page, 0 at a page's first entry.
    fn left(&self, file: &[u8], index: usize, step: usize) -> Pair {
        if index % step == 0 {
            (0, 0)
        } else {
            self.entry(file, index - 1)
        }
    }
}

/// Tests both parts.
pub(super) fn parts(file: &[u8], header: &Header) -> Test {
    runs(header, |runs| levels(file, header, runs))
}

/// Tests level 0, then the levels above it, the lowest first.
fn levels(file: &[u8], header: &Header, runs: &mut Runs) -> Test {
    let step = header.setting.step as usize;
    let mut below = Level {
        entries: header.second as usize,
        at: header.second_at as usize,
    };
    level_0(file, header, runs, below)?;
    let mut name = 1;
    while below.entries > step {
        // A level stands before the one below it.
        let entries = below.entries.div_ceil(step);
        let at = below.at - 8 * entries;
        let level = Level { entries, at };
        upper_level(file, level, below, step, name)?;
        below = level;
        name += 1;
    }
    Ok(())
}

/// Tests level 0.
fn level_0(file: &[u8], header: &Header, runs: &mut Runs, level: Level) -> Test {
    let step = header.setting.step as usize;
    for index in 0..level.entries {
        let at = level.entry_at(index);
        let (cells, empties) = level.entry(file, index);
        let left = level.left(file, index, step);
        if cells <= left.0 {
            return too_few_cells(index, cells, left.0, at);
        }
        if empties < left.1 {
            let left = left.1;
            let empties = many(empties, "empty cell");
            let message =
                format!("entry {index} of level 0 counts {empties}, fewer than the {left} before it in its page");
            return fault(at + 4, message);
        }
        runs.add(cells - left.0, empties - left.1, at)?;
    }
    runs.end()
}

/// The fault of an entry of level 0 that does not count more cells than the entry to its left.
fn too_few_cells(index: usize, cells: u64, left: u64, at: usize) -> Test {
    let entry = format!("entry {index} of level 0");
    let cells = many(cells, "cell");
    let message = match left {
        0 => format!("{entry} begins a page and counts {cells}; a run has at least 1"),
        _ => format!("{entry} counts {cells}, not more than the {left} before it in its page"),
    };
    fault(at, message)
}

/// Tests a level above a level that has passed.
fn upper_level(file: &[u8], level: Level, below: Level, step: usize, name: usize) -> Test {
    for index in 0..level.entries {
        let at = level.entry_at(index);
        let last = below.entries.min((index + 1) * step) - 1;
        let page = below.entry(file, last);
        let left = level.left(file, index, step);
        let (cells, empties) = level.entry(file, index);
        let sum = (left.0 + page.0, left.1 + page.1);
        for (at, count, sum, thing) in [
            (at, cells, sum.0, "cell"),
            (at + 4, empties, sum.1, "empty cell"),
        ] {
            if count != sum {
                let count = many(count, thing);
                let message =
                    format!("entry {index} of level {name} counts {count}; the sum from its page's start is {sum}");
                return fault(at, message);
            }
        }
    }
    Ok(())
}
