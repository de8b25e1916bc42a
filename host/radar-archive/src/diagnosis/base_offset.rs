//! Kind 3: bases and offsets.

use alloc::format;

use super::header::Header;
use super::positions::{rising, Rising};
use super::{fault, number, Test};
use crate::header::HEADER_LENGTH;

/// Tests both parts, in the order of the ranks.
pub(super) fn parts(file: &[u8], header: &Header) -> Test {
    let width = header.width();
    let step = header.setting.step as usize;
    rising(header, |rising| {
        let mut base = 0;
        for rank in 0..header.stored as usize {
            let at = header.second_at as usize + width * rank;
            let offset = number(file, at, width);
            if rank % step == 0 {
                base = number(file, base_at(rank / step), 4);
                at_base(rising, rank, rank / step, base)?;
                if offset != 0 {
                    let message =
                        format!("rank {rank} is at a base, so its offset is 0, not {offset}");
                    return fault(at, message);
                }
            } else {
                let position = base + offset;
                rising.follow(position, at, || {
                    format!(
                        "offset {offset} from position {base} puts rank {rank} at position {position}"
                    )
                })?;
            }
        }
        Ok(())
    })
}

/// The offset of a base in the file.
fn base_at(index: usize) -> usize {
    HEADER_LENGTH + 4 * index
}

/// Tests the position of a rank that is at a base.
fn at_base(rising: &mut Rising, rank: usize, index: usize, base: u64) -> Test {
    rising.place(base, base_at(index), || {
        format!("base {index} puts rank {rank} at position {base}")
    })
}
