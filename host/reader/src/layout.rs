//! The layout: the bytes of a picture in a setting.

use crate::header::HEADER_LENGTH;
use crate::picture::{stored_positions, Dimensions, Setting};
use crate::refusal::Refusal;
use crate::runs::{length_pairs, levels, runs, Pair};

/// A part of the file: its entry count and its bytes.
#[derive(Default)]
struct Part {
    count: u32,
    bytes: Vec<u8>,
}

impl Part {
    /// Adds an entry of one number, lowest byte first.
    fn push(&mut self, number: u32, size: usize) {
        self.count += 1;
        self.bytes.extend_from_slice(&number.to_le_bytes()[..size]);
    }

    /// Adds an entry of two numbers of 4 bytes.
    fn push_pair(&mut self, pair: Pair) {
        self.push(pair.0, 4);
        self.bytes.extend_from_slice(&pair.1.to_le_bytes());
    }
}

/// The file of the words. The setting, the dimensions and the number of words are right already;
/// what is left to refuse is a kind 3 offset that doesn't fit (9).
pub(crate) fn lay_out(
    setting: Setting,
    dims: Dimensions,
    empty: u32,
    words: &[u32],
) -> Result<Vec<u8>, Refusal> {
    let positions = stored_positions(empty, words);
    let (first, second) = match setting.kind {
        1 => run_parts(&positions),
        2 => position_parts(&positions),
        3 => base_parts(&positions, setting)?,
        4 | 6 => jump_parts(&positions, setting),
        5 => page_parts(&positions, setting),
        _ => return Err(Refusal::Kind),
    };
    let pointers = match setting.kind {
        6 => pointer_part(&positions, setting),
        _ => Part::default(),
    };
    let stored = positions.len();
    let mut file = header(setting, dims, empty, stored, &first, &second, &pointers);
    file.extend_from_slice(&first.bytes);
    file.extend_from_slice(&second.bytes);
    file.extend_from_slice(&pointers.bytes);
    for &position in &positions {
        file.extend_from_slice(&words[position as usize].to_le_bytes());
    }
    Ok(file)
}

/// The file of the words, if the destination has room for it. Tests 9, 10.
pub(crate) fn put_out(
    setting: Setting,
    dims: Dimensions,
    empty: u32,
    words: &[u32],
    room: usize,
) -> Result<Vec<u8>, Refusal> {
    fitting(lay_out(setting, dims, empty, words)?, room)
}

/// The result, if the destination has room for it, else 10.
pub(crate) fn fitting<T>(result: Vec<T>, room: usize) -> Result<Vec<T>, Refusal> {
    if result.len() > room {
        return Err(Refusal::Small);
    }
    Ok(result)
}

/// The 52 bytes before the parts. Pointers move the words, but no count includes them.
fn header(
    setting: Setting,
    dims: Dimensions,
    empty: u32,
    stored: usize,
    first: &Part,
    second: &Part,
    pointers: &Part,
) -> Vec<u8> {
    let first_at = HEADER_LENGTH;
    let second_at = first_at + first.bytes.len();
    let words_at = second_at + second.bytes.len() + pointers.bytes.len();
    let length = words_at + 4 * stored;
    let mut bytes = vec![
        setting.kind as u8,
        dims.count as u8,
        setting.width as u8,
        setting.step as u8,
    ];
    let mut fields = dims.extents.to_vec();
    fields.extend([empty, stored as u32, first.count, second.count]);
    fields.extend([first_at, second_at, words_at, length].map(|offset| offset as u32));
    for field in fields {
        bytes.extend_from_slice(&field.to_le_bytes());
    }
    bytes
}

/// Kind 1: the pairs of the runs.
fn run_parts(positions: &[u32]) -> (Part, Part) {
    let mut first = Part::default();
    for run in runs(positions) {
        first.push_pair(run);
    }
    (first, Part::default())
}

/// Kind 2: the positions.
fn position_parts(positions: &[u32]) -> (Part, Part) {
    let mut first = Part::default();
    for &position in positions {
        first.push(position, 4);
    }
    (first, Part::default())
}

/// Kind 3: a base every `step` ranks, and each rank's offset from its base.
fn base_parts(positions: &[u32], setting: Setting) -> Result<(Part, Part), Refusal> {
    let mut first = Part::default();
    let mut second = Part::default();
    for group in positions.chunks(setting.step as usize) {
        let base = group[0];
        first.push(base, 4);
        for &position in group {
            let offset = position - base;
            if offset > largest(setting.width) {
                return Err(Refusal::Unfit);
            }
            second.push(offset, setting.width as usize);
        }
    }
    Ok((first, second))
}

/// Kinds 4 and 6: the differences, and a jump wherever the difference is 0.
fn jump_parts(positions: &[u32], setting: Setting) -> (Part, Part) {
    let mut first = Part::default();
    let mut second = Part::default();
    let differences = differences(positions, setting.width);
    for (&position, difference) in positions.iter().zip(differences) {
        if difference == 0 {
            first.push(position, 4);
        }
        second.push(difference, setting.width as usize);
    }
    (first, second)
}

/// Kind 6: the ranks of jump 0, n, 2n and so on, where n is the step. Rank 0 has jump 0.
fn pointer_part(positions: &[u32], setting: Setting) -> Part {
    let mut jump_ranks = Vec::new();
    for (rank, difference) in (0u32..).zip(differences(positions, setting.width)) {
        if difference == 0 {
            jump_ranks.push(rank);
        }
    }
    let mut pointers = Part::default();
    for every_step in jump_ranks.chunks(setting.step as usize) {
        pointers.push(every_step[0], 4);
    }
    pointers
}

/// Kinds 4 and 6: for each rank the cells from the one before, or 0 where they don't fit the
/// width; 0 for rank 0.
fn differences(positions: &[u32], width: u32) -> Vec<u32> {
    let mut differences = Vec::new();
    let mut before = None;
    for &position in positions {
        let difference = match before {
            Some(before) if position - before <= largest(width) => position - before,
            _ => 0,
        };
        differences.push(difference);
        before = Some(position);
    }
    differences
}

/// Kind 5: the upper levels, top first, and level 0.
fn page_parts(positions: &[u32], setting: Setting) -> (Part, Part) {
    let lengths = length_pairs(&runs(positions));
    let levels = levels(&lengths, setting.step as usize);
    let mut first = Part::default();
    let mut second = Part::default();
    for &entry in levels[1..].iter().rev().flatten() {
        first.push_pair(entry);
    }
    for &entry in &levels[0] {
        second.push_pair(entry);
    }
    (first, second)
}

/// The largest number that `width` bytes hold, for a width of 1 or 2.
fn largest(width: u32) -> u32 {
    256u32.pow(width) - 1
}
