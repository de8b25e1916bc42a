//! Runs, and the pages of kind 5 over them.

/// Two numbers of a run or an entry: cells (or last position), and empty cells.
pub(crate) type Pair = (u32, u32);

/// The pairs (L_j, V_j) of the runs, from the positions of the stored cells.
///
/// A run ends at a stored cell that the next stored cell doesn't follow at once. Up to position p
/// of rank r there are p + 1 cells and r + 1 stored ones, so p - r empty ones.
pub(crate) fn runs(positions: &[u32]) -> Vec<Pair> {
    let mut runs = Vec::new();
    for (rank, &position) in positions.iter().enumerate() {
        let goes_on = positions.get(rank + 1) == Some(&(position + 1));
        if !goes_on {
            runs.push((position, position - rank as u32));
        }
    }
    runs
}

/// The length pairs (L_j - L_(j-1), V_j - V_(j-1)), where L is -1 and V is 0 before the first run.
pub(crate) fn length_pairs(runs: &[Pair]) -> Vec<Pair> {
    let mut cells_before = 0;
    let mut empties_before = 0;
    let mut lengths = Vec::new();
    for &(last, empties) in runs {
        lengths.push((last + 1 - cells_before, empties - empties_before));
        cells_before = last + 1;
        empties_before = empties;
    }
    lengths
}

/// Running sums that start anew at each page of `step` entries.
fn page_sums(pairs: &[Pair], step: usize) -> Vec<Pair> {
    let mut sums = Vec::new();
    for page in pairs.chunks(step) {
        let mut sum = (0, 0);
        for pair in page {
            sum = (sum.0 + pair.0, sum.1 + pair.1);
            sums.push(sum);
        }
    }
    sums
}

/// The levels of kind 5, level 0 first. The step is at least 2.
pub(crate) fn levels(lengths: &[Pair], step: usize) -> Vec<Vec<Pair>> {
    let mut level = page_sums(lengths, step);
    let mut levels = Vec::new();
    while level.len() > step {
        let lasts: Vec<Pair> = level
            .chunks(step)
            .map(|page| page[page.len() - 1])
            .collect();
        levels.push(level);
        level = page_sums(&lasts, step);
    }
    levels.push(level);
    levels
}

/// The number of entries above level 0, for a level 0 of `count` entries. The step is at least 2.
pub(crate) fn upper_count(count: u64, step: u64) -> u64 {
    let mut level = count;
    let mut upper = 0;
    while level > step {
        level = level.div_ceil(step);
        upper += level;
    }
    upper
}
