//! From a file's parts back to words.
//!
//! Decoding is lax: it gives the right words for an accepted file, and any words or none for other
//! bytes. The check lays the words out again and compares.

use crate::header::Header;
use crate::runs::Pair;

/// The words of the picture, or nothing where the parts make no sense. Numbers 1 to 5 are past.
pub(crate) fn words(header: &Header, cells: u32, bytes: &[u8]) -> Option<Vec<u32>> {
    let first = &bytes[header.first_at as usize..header.second_at as usize];
    let second = &bytes[header.second_at as usize..header.words_at as usize];
    let stored = numbers(&bytes[header.words_at as usize..], 4);
    let width = header.setting.width as usize;
    let step = header.setting.step as usize;
    let positions = match header.setting.kind {
        1 => of_lengths(&run_lengths(&pairs(first))?, cells)?,
        2 => numbers(first, 4),
        3 => of_bases(&numbers(first, 4), &numbers(second, width), step)?,
        4 | 6 => {
            // The pointers of kind 6 stand behind the differences; the check compares them.
            let differences = &second[..width * stored.len()];
            of_jumps(&numbers(first, 4), &numbers(differences, width))?
        }
        _ => of_lengths(&page_lengths(&pairs(second), step)?, cells)?,
    };
    if positions.len() != stored.len() {
        return None;
    }
    let mut words = vec![header.empty; cells as usize];
    for (&position, &word) in positions.iter().zip(&stored) {
        *words.get_mut(position as usize)? = word;
    }
    Some(words)
}

/// The numbers of a part, each of `size` bytes, lowest first.
fn numbers(part: &[u8], size: usize) -> Vec<u32> {
    part.chunks_exact(size)
        .map(|entry| {
            entry
                .iter()
                .rev()
                .fold(0, |sum, &byte| sum * 256 + u32::from(byte))
        })
        .collect()
}

/// The pairs of a part.
fn pairs(part: &[u8]) -> Vec<Pair> {
    numbers(part, 4)
        .chunks_exact(2)
        .map(|pair| (pair[0], pair[1]))
        .collect()
}

/// Kind 1: the length pairs of the runs.
fn run_lengths(runs: &[Pair]) -> Option<Vec<Pair>> {
    let mut cells_before = 0;
    let mut empties_before = 0;
    let mut lengths = Vec::new();
    for &(last, empties) in runs {
        let cells = last.checked_add(1)?;
        lengths.push((
            cells.checked_sub(cells_before)?,
            empties.checked_sub(empties_before)?,
        ));
        cells_before = cells;
        empties_before = empties;
    }
    Some(lengths)
}

/// Kind 5: the length pairs of the runs, from level 0 alone.
fn page_lengths(entries: &[Pair], step: usize) -> Option<Vec<Pair>> {
    let mut lengths = Vec::new();
    for page in entries.chunks(step) {
        let mut left: Pair = (0, 0);
        for &(cells, empties) in page {
            lengths.push((cells.checked_sub(left.0)?, empties.checked_sub(left.1)?));
            left = (cells, empties);
        }
    }
    Some(lengths)
}

/// Kinds 1 and 5: the stored positions of runs, each of so many cells with the empty ones first.
fn of_lengths(lengths: &[Pair], cells: u32) -> Option<Vec<u32>> {
    let mut positions = Vec::new();
    let mut start: u32 = 0;
    for &(length, empties) in lengths {
        let end = start.checked_add(length)?;
        if end > cells || empties > length {
            return None;
        }
        positions.extend(start + empties..end);
        start = end;
    }
    Some(positions)
}

/// Kind 3: each offset added to the base of its group.
fn of_bases(bases: &[u32], offsets: &[u32], step: usize) -> Option<Vec<u32>> {
    let mut positions = Vec::new();
    for (rank, &offset) in offsets.iter().enumerate() {
        positions.push(bases.get(rank / step)?.checked_add(offset)?);
    }
    Some(positions)
}

/// Kinds 4 and 6: a difference 0 takes the next jump, another one is added to the position before.
fn of_jumps(jumps: &[u32], differences: &[u32]) -> Option<Vec<u32>> {
    let mut jumps = jumps.iter();
    let mut positions: Vec<u32> = Vec::new();
    for &difference in differences {
        let position = if difference == 0 {
            *jumps.next()?
        } else {
            positions.last()?.checked_add(difference)?
        };
        positions.push(position);
    }
    Some(positions)
}
