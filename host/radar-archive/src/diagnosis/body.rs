//! Number 6: the parts, kind by kind, and the stored words.

use alloc::format;

use super::header::Header;
use super::{base_offset, fault, jumps, number, paged_runs, pointed_jumps, positions, runs, Test};
use crate::Kind;

/// Tests 6: the parts first, then the words. Numbers 1 to 5 are past.
pub(super) fn body(file: &[u8], header: &Header) -> Test {
    match header.setting.kind {
        Kind::Runs => runs::parts(file, header)?,
        Kind::Positions => positions::parts(file, header)?,
        Kind::BaseOffset => base_offset::parts(file, header)?,
        Kind::Jumps => jumps::parts(file, header)?,
        Kind::PagedRuns => paged_runs::parts(file, header)?,
        Kind::PointedJumps => pointed_jumps::parts(file, header)?,
    }
    words(file, header)
}

/// No stored word is the empty word. One that is can be wrong itself; where several are, the empty word is.
fn words(file: &[u8], header: &Header) -> Test {
    let empty = header.empty;
    let at = |rank: usize| header.words_at as usize + 4 * rank;
    let ranks = 0..header.stored as usize;
    let mut found = ranks.filter(|&rank| number(file, at(rank), 4) == empty);
    let Some(rank) = found.next() else {
        return Ok(());
    };
    match found.count() {
        0 => fault(
            at(rank),
            format!("the word of rank {rank} is {empty}, the empty word"),
        ),
        more => fault(
            20,
            format!(
                "the empty word is {empty}, and so are {} stored words",
                more + 1
            ),
        ),
    }
}
