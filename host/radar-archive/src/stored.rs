//! The stored cells of an opened file, one after the other.

use alloc::borrow::Cow;
use core::iter::FusedIterator;
use core::ops::Range;

use crate::buffers::accepted;
use crate::{calls, Archive, Kind, Position, Rank, Setting};

/// The stored cells of a file in rising order: rank, position and word. See [`Archive::stored_cells`].
#[derive(Clone, Debug)]
pub struct StoredCells<'a> {
    /// A file of the picture whose kind finds a rank without a pass along the file.
    searched: Cow<'a, [u8]>,
    /// The stored words, 4 bytes each.
    words: &'a [u8],
    /// The ranks not given yet.
    left: Range<u32>,
}

impl<'a> StoredCells<'a> {
    /// All stored cells of a file.
    pub(crate) fn of<B: AsRef<[u8]>>(archive: &'a Archive<B>) -> StoredCells<'a> {
        let stored = archive.stored_count();
        let words = accepted(archive.ranks(Rank(0), Rank(stored)));
        let searched = match archive.setting().kind {
            Kind::Jumps | Kind::PointedJumps => {
                Cow::Owned(accepted(archive.change(Setting::positions())))
            }
            _ => Cow::Borrowed(archive.bytes()),
        };
        StoredCells {
            searched,
            words,
            left: 0..stored,
        }
    }

    /// The stored cell of a rank below N.
    fn cell(&self, rank: u32) -> (Rank, Position, u32) {
        let position = accepted(calls::opened_position(&self.searched, Rank(rank)));
        let at = 4 * rank as usize;
        let bytes = &self.words[at..at + 4];
        let word = u32::from_le_bytes([bytes[0], bytes[1], bytes[2], bytes[3]]);
        (Rank(rank), position, word)
    }
}

impl Iterator for StoredCells<'_> {
    type Item = (Rank, Position, u32);

    fn next(&mut self) -> Option<Self::Item> {
        let rank = self.left.next()?;
        Some(self.cell(rank))
    }

    fn size_hint(&self) -> (usize, Option<usize>) {
        self.left.size_hint()
    }

    fn nth(&mut self, skipped: usize) -> Option<Self::Item> {
        let rank = self.left.nth(skipped)?;
        Some(self.cell(rank))
    }
}

impl DoubleEndedIterator for StoredCells<'_> {
    fn next_back(&mut self) -> Option<Self::Item> {
        let rank = self.left.next_back()?;
        Some(self.cell(rank))
    }
}

impl ExactSizeIterator for StoredCells<'_> {}

impl FusedIterator for StoredCells<'_> {}
