//! Dimensions and coordinates.

use core::fmt;
use core::ops::Deref;

use crate::{calls, Position, Refusal};

/// A dimension count and as many extents.
///
/// The extents are not checked when dimensions are put together; the calls that take them refuse with [`Refusal::Extent`].
///
/// ```
/// use radar_archive::{Dimensions, Position};
///
/// let dimensions = Dimensions::of(&[3, 4])?;
/// assert_eq!(dimensions.extents(), [3, 4]);
/// assert_eq!(dimensions.cells(), Ok(12));
/// assert_eq!(dimensions.position(&[1, 2]), Ok(Position(6)));
/// assert_eq!(*dimensions.coordinates(Position(6))?, [1, 2]);
/// # Ok::<(), radar_archive::Refusal>(())
/// ```
#[derive(Clone, Copy, Debug, PartialEq, Eq, Hash)]
pub struct Dimensions {
    count: u32,
    /// Four extents, 1 past the count.
    four: [u32; 4],
}

impl Dimensions {
    /// The dimensions of 1 to 4 extents. Another number of extents is [`Refusal::Extent`]; the extents are not checked.
    pub fn of(extents: &[u32]) -> Result<Dimensions, Refusal> {
        if extents.is_empty() || extents.len() > 4 {
            return Err(Refusal::Extent);
        }
        let mut four = [1; 4];
        four[..extents.len()].copy_from_slice(extents);
        let count = extents.len() as u32;
        Ok(Dimensions { count, four })
    }

    /// A dimension count and four extents as a header has them, nothing checked.
    ///
    /// ```
    /// # use radar_archive::{Dimensions, Refusal};
    /// assert_eq!(Ok(Dimensions::of_numbers(2, [3, 4, 1, 1])), Dimensions::of(&[3, 4]));
    /// assert_eq!(Dimensions::of_numbers(2, [3, 4, 2, 1]).cells(), Err(Refusal::Extent));
    /// assert_eq!(Dimensions::of_numbers(5, [3, 4, 1, 1]).cells(), Err(Refusal::Extent));
    /// ```
    pub fn of_numbers(count: u32, extents: [u32; 4]) -> Dimensions {
        let four = extents;
        Dimensions { count, four }
    }

    /// The number of dimensions, 1 to 4.
    pub fn count(&self) -> u32 {
        self.count
    }

    /// The extents, first dimension first, as many as there are dimensions.
    pub fn extents(&self) -> &[u32] {
        let count = self.four.len().min(self.count as usize);
        &self.four[..count]
    }

    /// The four extents as the calls take them.
    pub(crate) fn four(&self) -> &[u32; 4] {
        &self.four
    }

    /// The number of cells, or 4.
    ///
    /// ```
    /// # use radar_archive::{Dimensions, Refusal};
    /// assert_eq!(Dimensions::of(&[3, 4, 5])?.cells(), Ok(60));
    /// assert_eq!(Dimensions::of(&[3, 0])?.cells(), Err(Refusal::Extent));
    /// assert_eq!(Dimensions::of(&[65_536, 65_536])?.cells(), Err(Refusal::Extent));
    /// # Ok::<(), Refusal>(())
    /// ```
    pub fn cells(&self) -> Result<u32, Refusal> {
        calls::coordinates_position(self.count, &self.four, &[0; 4])?;
        Ok(self.four.iter().product())
    }

    /// The position of coordinates, as many as there are dimensions, in row order. Tests 4, 8; another number of coordinates is 8.
    ///
    /// ```
    /// # use radar_archive::{Dimensions, Refusal};
    /// let dimensions = Dimensions::of(&[3, 4])?;
    /// assert_eq!(dimensions.position(&[1, 4]), Err(Refusal::Beyond));
    /// assert_eq!(dimensions.position(&[1, 2, 0]), Err(Refusal::Beyond));
    /// # Ok::<(), Refusal>(())
    /// ```
    pub fn position(&self, at: &[u32]) -> Result<Position, Refusal> {
        calls::coordinates_position(self.count, &self.four, self.filled(at).lent())
    }

    /// The coordinates of a position, as many as there are dimensions. Tests 4, 8.
    ///
    /// ```
    /// # use radar_archive::{Dimensions, Position, Refusal};
    /// let dimensions = Dimensions::of(&[3, 4])?;
    /// let at = dimensions.coordinates(Position(11))?;
    /// assert_eq!(at.iter().map(u32::to_string).collect::<Vec<_>>().join(","), "2,3");
    /// assert_eq!(dimensions.coordinates(Position(12)), Err(Refusal::Beyond));
    /// # Ok::<(), Refusal>(())
    /// ```
    pub fn coordinates(&self, position: Position) -> Result<Coordinates, Refusal> {
        let mut four = [0; 4];
        calls::position_coordinates(self.count, &self.four, position, &mut four)?;
        let count = self.extents().len();
        Ok(Coordinates { count, four })
    }

    /// Coordinates filled up to the four that the calls take.
    pub(crate) fn filled(&self, at: &[u32]) -> Filled {
        let mut four = [0; 4];
        if at.len() != self.extents().len() {
            return Filled { four, lent: 0 };
        }
        four[..at.len()].copy_from_slice(at);
        let lent = four.len();
        Filled { four, lent }
    }
}

/// Four coordinates, or none where those that were handed in are not as many as there are dimensions.
pub(crate) struct Filled {
    four: [u32; 4],
    lent: usize,
}

impl Filled {
    /// The coordinates as they are lent to the engine, which refuses any other number than four with 8.
    pub(crate) fn lent(&self) -> &[u32] {
        &self.four[..self.lent]
    }
}

/// The coordinates of a cell, as many as its picture has dimensions: a slice of them.
///
/// ```
/// use radar_archive::{Dimensions, Position};
///
/// let at = Dimensions::of(&[3, 4])?.coordinates(Position(6))?;
/// assert_eq!(at.len(), 2);
/// assert_eq!((at[0], at[1]), (1, 2));
/// # Ok::<(), radar_archive::Refusal>(())
/// ```
#[derive(Clone, Copy, PartialEq, Eq, Hash)]
pub struct Coordinates {
    count: usize,
    four: [u32; 4],
}

impl Deref for Coordinates {
    type Target = [u32];

    fn deref(&self) -> &[u32] {
        &self.four[..self.count]
    }
}

impl AsRef<[u32]> for Coordinates {
    fn as_ref(&self) -> &[u32] {
        self
    }
}

impl fmt::Debug for Coordinates {
    fn fmt(&self, f: &mut fmt::Formatter<'_>) -> fmt::Result {
        fmt::Debug::fmt(&**self, f)
    }
}
