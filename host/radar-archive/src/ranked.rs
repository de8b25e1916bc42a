//! What the rank lookup finds.

use crate::Rank;

/// What the rank lookup finds at a position.
///
/// ```
/// # use radar_archive::{Archive, Dimensions, Picture, Position, Rank, Ranked, Setting};
/// let words = vec![0, 0, 7, 9, 0, 5, 0, 0, 0, 0, 300, 0];
/// let picture = Picture { dimensions: Dimensions::of(&[12])?, empty: 0, words };
/// let archive = Archive::open(picture.make(Setting::runs())?)?;
/// let (stored, empty) = (archive.rank(Position(5))?, archive.rank(Position(6))?);
/// assert_eq!((stored, empty), (Ranked::Stored(Rank(2)), Ranked::Empty(3)));
/// assert_eq!((stored.rank(), empty.rank()), (Some(Rank(2)), None));
/// assert_eq!((stored.before(), empty.before()), (2, 3));
/// assert_eq!((stored.through(), empty.through()), (3, 3));
/// # Ok::<(), radar_archive::Refusal>(())
/// ```
#[derive(Clone, Copy, Debug, PartialEq, Eq)]
pub enum Ranked {
    /// The cell is stored, and has this rank.
    Stored(Rank),
    /// The cell is empty, and so many stored cells come before it: 0 before the first stored cell, N after the last.
    Empty(u32),
}

impl Ranked {
    /// The rank of a stored cell.
    pub fn rank(self) -> Option<Rank> {
        match self {
            Ranked::Stored(rank) => Some(rank),
            Ranked::Empty(_) => None,
        }
    }

    /// The number of stored cells before the cell.
    pub fn before(self) -> u32 {
        match self {
            Ranked::Stored(Rank(before)) | Ranked::Empty(before) => before,
        }
    }

    /// The number of stored cells up to and including the cell.
    pub fn through(self) -> u32 {
        self.before() + u32::from(self.rank().is_some())
    }
}
