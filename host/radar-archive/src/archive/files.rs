//! The files that an opened file turns into: with one cell written, and in another setting.

use alloc::vec::Vec;

use crate::buffers::put_out;
use crate::{calls, Archive, Lengths, Offer, Position, Refusal, Setting};

impl<B: AsRef<[u8]>> Archive<B> {
    /// The file after writing one cell, in the same setting. Writing the empty word empties the cell. Tests 8, 9.
    ///
    /// ```
    /// # use radar_archive::{Archive, Dimensions, Picture, Position, Refusal, Setting};
    /// let file = Picture::all_empty(Dimensions::of(&[12])?, 0)?.make(Setting::runs())?;
    /// let archive = Archive::open(&file)?;
    /// let written = archive.write(Position(3), 7)?;
    /// assert_eq!(Archive::open(&written)?.cell(Position(3)), Ok(7));
    /// assert_eq!(Archive::open(&written)?.write(Position(3), 0), Ok(file.clone()));
    /// assert_eq!(archive.write(Position(12), 7), Err(Refusal::Beyond));
    /// # Ok::<(), Refusal>(())
    /// ```
    pub fn write(&self, position: Position, word: u32) -> Result<Vec<u8>, Refusal> {
        let longest = self.setting().longest_file(self.most_stored());
        put_out(longest, |file| self.write_into(position, word, file))
    }

    /// The most stored cells after writing one cell.
    fn most_stored(&self) -> usize {
        self.stored_count().saturating_add(1).min(self.cells()) as usize
    }

    /// Puts the file after writing one cell in the first bytes of a destination and gives its length. Tests 8, 9, 10.
    pub fn write_into(
        &self,
        position: Position,
        word: u32,
        destination: &mut [u8],
    ) -> Result<usize, Refusal> {
        calls::write(self.bytes(), position, word, destination)
    }

    /// The file in another setting. Tests 2, 3, 9.
    ///
    /// ```
    /// # use radar_archive::{Archive, Dimensions, Picture, Refusal, Setting};
    /// let words = vec![0, 0, 7, 9, 0, 5, 0, 0, 0, 0, 300, 0];
    /// let picture = Picture { dimensions: Dimensions::of(&[12])?, empty: 0, words };
    /// let file = picture.make(Setting::runs())?;
    /// let archive = Archive::open(&file)?;
    /// assert_eq!(archive.change(Setting::jumps(1))?.len(), 76);
    /// assert_eq!(archive.change(Setting::paged_runs(65)), Err(Refusal::Setting));
    /// # Ok::<(), Refusal>(())
    /// ```
    pub fn change(&self, setting: Setting) -> Result<Vec<u8>, Refusal> {
        let longest = setting.longest_file(self.stored_count() as usize);
        put_out(longest, |file| self.change_into(setting, file))
    }

    /// Puts the file in another setting in the first bytes of a destination and gives its length. Tests 2, 3, 9, 10.
    pub fn change_into(&self, setting: Setting, destination: &mut [u8]) -> Result<usize, Refusal> {
        calls::change(self.bytes(), setting, destination)
    }

    /// The setting whose file of the picture is the shortest, and that file's length.
    ///
    /// On equal length it is the lowest kind, then width, then step. [`Lengths`] has the length in every setting.
    ///
    /// ```
    /// # use radar_archive::{Archive, Dimensions, Picture, Setting};
    /// let words = vec![0, 0, 7, 9, 0, 5, 0, 0, 0, 0, 300, 0];
    /// let picture = Picture { dimensions: Dimensions::of(&[12])?, empty: 0, words };
    /// let archive = Archive::open(picture.make(Setting::runs())?)?;
    /// let best = archive.best();
    /// assert_eq!((best.setting, best.length), (Setting::base_offset(1, 4), 76));
    /// assert_eq!(archive.change(best.setting)?.len(), 76);
    /// # Ok::<(), radar_archive::Refusal>(())
    /// ```
    pub fn best(&self) -> Offer {
        Lengths::of(self).shortest()
    }
}
