//! Kind 4, and the rules of differences and jumps that kinds 4 and 6 share.

use alloc::format;

use super::header::Header;
use super::positions::{rising, Rising};
use super::{fault, many, number, Test};
use crate::header::HEADER_LENGTH;

/// Tests both parts of kind 4.
pub(super) fn parts(file: &[u8], header: &Header) -> Test {
    rising(header, |rising| differences(file, header, rising))
}

/// Tests jumps and differences, in the order of the ranks.
pub(super) fn differences(file: &[u8], header: &Header, rising: &mut Rising) -> Test {
    let mut jumps = 0;
    for rank in 0..header.stored as usize {
        let (at, difference) = difference(file, header, rank);
        if difference != 0 {
            step(rising, rank, difference, at)?;
            continue;
        }
        if jumps == header.first {
            let message =
                format!("the difference of rank {rank} is 0, and there is no jump {jumps} for it");
            return fault(at, message);
        }
        jump(file, header, rising, rank, jumps as usize)?;
        jumps += 1;
    }
    left_over(header, jumps)
}

/// The offset of a rank's difference, and the difference.
pub(super) fn difference(file: &[u8], header: &Header, rank: usize) -> (usize, u64) {
    let width = header.width();
    let at = header.second_at as usize + width * rank;
    (at, number(file, at, width))
}

/// Tests a difference that is not 0.
fn step(rising: &mut Rising, rank: usize, difference: u64, at: usize) -> Test {
    let Some(before) = rising.before() else {
        let message = format!("the difference of rank {rank} is {difference}, not 0");
        return fault(at, message);
    };
    let position = before + difference;
    rising.follow(position, at, || {
        format!("difference {difference} from position {before} puts rank {rank} at position {position}")
    })
}

/// Tests the jump of a rank.
fn jump(file: &[u8], header: &Header, rising: &mut Rising, rank: usize, index: usize) -> Test {
    let at = HEADER_LENGTH + 4 * index;
    let position = number(file, at, 4);
    let before = rising.before();
    rising.place(position, at, || {
        format!("jump {index} puts rank {rank} at position {position}")
    })?;
    let Some(before) = before else {
        return Ok(());
    };
    let width = header.width();
    let largest = (1 << (8 * width)) - 1;
    let difference = position - before;
    if difference <= largest {
        let message = format!(
            "jump {index} goes from position {before} to {position}, but a difference of {difference} fits width {width}"
        );
        return fault(at, message);
    }
    Ok(())
}

/// Tests that each jump is that of a rank.
fn left_over(header: &Header, taken: u64) -> Test {
    if taken == header.first {
        return Ok(());
    }
    let jumps = many(header.first, "jump");
    let zeros = many(taken, "difference");
    let message = format!("{jumps} for {zeros} of 0; jump {taken} belongs to no rank");
    fault(HEADER_LENGTH + 4 * taken as usize, message)
}
