//! Kind 6: jumps and differences by the rules of kind 4, and the pointers behind them.

use alloc::format;
use alloc::vec::Vec;

use super::header::Header;
use super::jumps::{difference, differences};
use super::positions::rising;
use super::{fault, number, Test};
use crate::Setting;

/// Tests both parts, the pointers last.
pub(super) fn parts(file: &[u8], header: &Header) -> Test {
    rising(header, |rising| {
        differences(file, header, rising)?;
        each_pointer(file, header)
    })
}

/// Tests the pointers of jumps and differences that have passed: each is the rank of its jump.
fn each_pointer(file: &[u8], header: &Header) -> Test {
    let step = header.setting.step as usize;
    for (index, rank) in jump_ranks(file, header).step_by(step).enumerate() {
        let at = pointer_at(header, index);
        let pointer = number(file, at, 4);
        if pointer != rank as u64 {
            let jump = index * step;
            let message =
                format!("pointer {index} points to rank {pointer}; jump {jump} is at rank {rank}");
            return fault(at, message);
        }
    }
    Ok(())
}

/// The ranks of the jumps, those whose difference is 0.
fn jump_ranks<'a>(file: &'a [u8], header: &'a Header) -> impl Iterator<Item = usize> + 'a {
    let ranks = 0..header.stored as usize;
    ranks.filter(|&rank| difference(file, header, rank).1 == 0)
}

/// The offset of a pointer, behind the differences.
fn pointer_at(header: &Header, index: usize) -> usize {
    let (second_at, stored) = (header.second_at as usize, header.stored as usize);
    second_at + header.width() * stored + 4 * index
}

/// The steps with which the pointers could be right, of many the lowest and the highest. The header is any.
///
/// A single pointer is right with each step that is no less than the jumps; where there are more, the second is the rank of the jump whose
/// number is the step.
pub(super) fn steps(file: &[u8], header: &Header) -> Vec<u32> {
    let Setting { kind, width, .. } = header.setting;
    let differences_end = header.second_at + u64::from(width) * header.stored;
    if !kind.widths().contains(&width) || differences_end > file.len() as u64 {
        return Vec::new();
    }
    match header.words_at.saturating_sub(differences_end) / 4 {
        0 => Vec::new(),
        1 => [header.first as u32, *kind.steps().end()].into(),
        _ => {
            let second = number(file, pointer_at(header, 1), 4) as usize;
            let before = jump_ranks(file, header).take_while(|&rank| rank < second);
            [before.count() as u32].into()
        }
    }
}
