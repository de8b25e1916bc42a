//! How a file is laid out: its entries and their bytes, by setting.

use crate::header::HEADER_LENGTH;
use crate::{Kind, Setting};

/// What the entries of a picture's parts are counted from.
#[derive(Clone, Copy)]
pub(crate) struct Counts {
    /// The stored cells, N.
    pub(crate) stored: usize,
    /// The runs, of kinds 1 and 5.
    pub(crate) runs: usize,
    /// The jumps, of kinds 4 and 6.
    pub(crate) jumps: usize,
}

/// The length of a file in an allowed setting.
pub(crate) fn length(setting: Setting, counts: Counts) -> usize {
    let entries = entries(setting, counts).map(|count| count as u64);
    let [first, second] = part_lengths(setting, entries).map(|length| length as usize);
    HEADER_LENGTH + first + second + 4 * counts.stored
}

/// The entries of the first and the second part in an allowed setting.
fn entries(setting: Setting, counts: Counts) -> [usize; 2] {
    let Counts {
        stored,
        runs,
        jumps,
    } = counts;
    let step = setting.step as usize;
    match setting.kind {
        Kind::Runs => [runs, 0],
        Kind::Positions => [stored, 0],
        Kind::BaseOffset => [stored.div_ceil(step), stored],
        Kind::Jumps | Kind::PointedJumps => [jumps, stored],
        Kind::PagedRuns => [upper_entries(runs as u64, step as u64) as usize, runs],
    }
}

/// The bytes of the first and the second part with so many entries in an allowed setting.
pub(crate) fn part_lengths(setting: Setting, [first, second]: [u64; 2]) -> [u64; 2] {
    let [first_size, second_size] = entry_sizes(setting).map(|size| size as u64);
    let pointers = pointers(setting, first);
    [first_size * first, second_size * second + 4 * pointers]
}

/// The pointers of kind 6, which stand behind the differences and are in no count; 0 in another kind. The setting is allowed.
pub(crate) fn pointers(setting: Setting, jumps: u64) -> u64 {
    match setting.kind {
        Kind::PointedJumps => jumps.div_ceil(setting.step.into()),
        _ => 0,
    }
}

/// The bytes of an entry of the first and of the second part; 0 for a part that the kind does not have.
pub(crate) fn entry_sizes(setting: Setting) -> [usize; 2] {
    let width = setting.width as usize;
    match setting.kind {
        Kind::Runs => [8, 0],
        Kind::Positions => [4, 0],
        Kind::BaseOffset | Kind::Jumps | Kind::PointedJumps => [4, width],
        Kind::PagedRuns => [8, 8],
    }
}

/// The entries of all levels above level 0 of kind 5. The step is at least 2.
pub(crate) fn upper_entries(runs: u64, step: u64) -> u64 {
    let mut level = runs;
    let mut upper = 0;
    while level > step {
        level = level.div_ceil(step);
        upper += level;
    }
    upper
}

#[cfg(test)]
mod tests {
    use super::upper_entries;

    #[test]
    fn entries_above_level_0() {
        assert_eq!(upper_entries(2, 2), 0);
        assert_eq!(upper_entries(5, 2), 3 + 2);
    }
}
