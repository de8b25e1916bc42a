//! Pictures, and the two sorts of numbers into them.

use alloc::vec;
use alloc::vec::Vec;

use crate::buffers::put_out;
use crate::calls;
use crate::{Dimensions, Refusal, Setting};

/// The most cells that a picture may have.
pub const MOST_CELLS: u32 = 16_777_216;

/// A position in the picture, in row order from 0.
#[derive(Clone, Copy, Debug, PartialEq, Eq, Hash, PartialOrd, Ord)]
pub struct Position(pub u32);

/// A rank among the stored cells, from 0.
#[derive(Clone, Copy, Debug, PartialEq, Eq, Hash, PartialOrd, Ord)]
pub struct Rank(pub u32);

/// A picture: dimensions, the empty word, and one word for each cell in row order.
///
/// ```
/// use radar_archive::{Archive, Dimensions, Picture, Position, Setting};
///
/// let picture = Picture {
///     dimensions: Dimensions::of(&[12])?,
///     empty: 0,
///     words: vec![0, 0, 7, 9, 0, 5, 0, 0, 0, 0, 300, 0],
/// };
/// let file = picture.make(Setting::runs())?;
/// assert_eq!(file.len(), 92);
/// assert_eq!(Archive::open(&file)?.picture(), picture);
/// # Ok::<(), radar_archive::Refusal>(())
/// ```
#[derive(Clone, Debug, PartialEq, Eq)]
pub struct Picture {
    /// The dimensions.
    pub dimensions: Dimensions,
    /// The empty word E.
    pub empty: u32,
    /// The words of all cells, in row order.
    pub words: Vec<u32>,
}

impl Picture {
    /// A picture whose cells are all empty. Tests 4.
    ///
    /// ```
    /// # use radar_archive::{Dimensions, Picture, Refusal};
    /// let picture = Picture::all_empty(Dimensions::of(&[3, 4])?, 9)?;
    /// assert_eq!(picture.words, [9; 12]);
    /// let large = Dimensions::of(&[65_536, 65_536])?;
    /// assert_eq!(Picture::all_empty(large, 9), Err(Refusal::Extent));
    /// # Ok::<(), Refusal>(())
    /// ```
    pub fn all_empty(dimensions: Dimensions, empty: u32) -> Result<Picture, Refusal> {
        let words = vec![empty; dimensions.cells()? as usize];
        Ok(Picture {
            dimensions,
            empty,
            words,
        })
    }

    /// The number of stored cells, N: those whose word is not the empty word.
    pub fn stored_count(&self) -> usize {
        self.words
            .iter()
            .filter(|&&word| word != self.empty)
            .count()
    }

    /// The file of the picture. Tests 2, 3, 4, 7, 9.
    ///
    /// ```
    /// # use radar_archive::{Dimensions, Picture, Refusal, Setting};
    /// let mut picture = Picture::all_empty(Dimensions::of(&[300])?, 0)?;
    /// picture.words[2] = 7;
    /// picture.words[258] = 8;
    /// assert_eq!(picture.make(Setting::base_offset(1, 2)), Err(Refusal::Unfit));
    /// assert!(picture.make(Setting::base_offset(1, 1)).is_ok());
    /// picture.words.pop();
    /// assert_eq!(picture.make(Setting::runs()), Err(Refusal::Picture));
    /// # Ok::<(), Refusal>(())
    /// ```
    pub fn make(&self, setting: Setting) -> Result<Vec<u8>, Refusal> {
        let longest = setting.longest_file(self.stored_count());
        put_out(longest, |file| self.make_into(setting, file))
    }

    /// Puts the file of the picture in the first bytes of a destination and gives its length. Tests 2, 3, 4, 7, 9, 10.
    ///
    /// ```
    /// # use radar_archive::{Dimensions, Picture, Refusal, Setting};
    /// let picture = Picture::all_empty(Dimensions::of(&[12])?, 0)?;
    /// let mut destination = [99; 60];
    /// assert_eq!(picture.make_into(Setting::runs(), &mut destination[..51]), Err(Refusal::Small));
    /// assert_eq!(destination, [99; 60]);
    /// assert_eq!(picture.make_into(Setting::runs(), &mut destination), Ok(52));
    /// assert_eq!(destination[52..], [99; 8]);
    /// # Ok::<(), Refusal>(())
    /// ```
    pub fn make_into(&self, setting: Setting, destination: &mut [u8]) -> Result<usize, Refusal> {
        calls::make(
            setting,
            self.dimensions.count(),
            self.dimensions.four(),
            self.empty,
            &self.words,
            destination,
        )
    }
}
