//! An opened file.

mod files;

use alloc::vec;
use alloc::vec::Vec;

use crate::buffers::accepted;
use crate::diagnosis::{self, Fault};
use crate::header::Header;
use crate::stored::StoredCells;
use crate::{calls, Dimensions, Picture, Position, Rank, Ranked, Refusal, Setting};

/// An accepted file, opened, with its bytes: owned (`Archive<Vec<u8>>`), borrowed (`Archive<&[u8]>`, which is `Copy`), or behind anything
/// else that gives the same bytes each time, such as an `Arc<[u8]>`.
///
/// [`Archive::open`] makes the complete check once; [`cell`](Archive::cell), [`rank`](Archive::rank) and
/// [`position`](Archive::position) search without repeating it. The other calls check again as part of the engine's call.
///
/// ```
/// use radar_archive::{Archive, Dimensions, Picture, Position, Rank, Ranked, Setting};
///
/// let mut picture = Picture::all_empty(Dimensions::of(&[3, 4])?, 0)?;
/// picture.words[6] = 41;
/// let file = picture.make(Setting::paged_runs(8))?;
///
/// let archive = Archive::open(file)?;
/// assert_eq!(archive.cell(Position(6)), Ok(41));
/// assert_eq!(archive.rank(Position(6)), Ok(Ranked::Stored(Rank(0))));
/// assert_eq!(archive.rank(Position(7)), Ok(Ranked::Empty(1)));
/// assert_eq!(archive.position(Rank(0)), Ok(Position(6)));
///
/// let written = archive.write(Position(7), 42)?;
/// let stored: Vec<_> = Archive::open(&written)?.stored_cells().collect();
/// assert_eq!(stored, [(Rank(0), Position(6), 41), (Rank(1), Position(7), 42)]);
/// # Ok::<(), radar_archive::Refusal>(())
/// ```
#[derive(Clone, Copy, Debug)]
pub struct Archive<B = Vec<u8>> {
    file: B,
    header: Header,
}

impl<B: AsRef<[u8]>> Archive<B> {
    /// Opens a file: the complete check, 1 to 6. A refused file is told with what is wrong and where.
    ///
    /// ```
    /// # use radar_archive::{Archive, Dimensions, Picture, Refusal, Setting};
    /// let mut file = Picture::all_empty(Dimensions::of(&[12])?, 0)?.make(Setting::runs())?;
    /// assert!(Archive::open(&file).is_ok());
    /// file.push(0);
    /// let fault = Archive::open(&file).unwrap_err();
    /// assert_eq!(fault.refusal, Refusal::Counts);
    /// assert_eq!(fault.byte, Some(48));
    /// assert_eq!(fault.to_string(), "5 counts: the length in the header is 52, the file has 53 bytes (byte 48)");
    /// file[0] = 7;
    /// assert_eq!(Archive::open(file).unwrap_err().to_string(), "2 kind: kind 7; the kinds are 1 to 6 (byte 0)");
    /// # Ok::<(), Refusal>(())
    /// ```
    pub fn open(file: B) -> Result<Archive<B>, Fault> {
        let bytes = file.as_ref();
        calls::check(bytes).map_err(|refusal| diagnosis::of(bytes, refusal))?;
        let header = Header::of(bytes);
        Ok(Archive { file, header })
    }

    /// The file's bytes.
    pub fn bytes(&self) -> &[u8] {
        self.file.as_ref()
    }

    /// The file's bytes, handed back as they were given.
    pub fn into_bytes(self) -> B {
        self.file
    }

    /// The same file, opened, over borrowed bytes; nothing is checked again.
    pub fn borrowed(&self) -> Archive<&[u8]> {
        Archive {
            file: self.bytes(),
            header: self.header,
        }
    }

    /// The same file, opened, over a copy of its bytes; nothing is checked again.
    ///
    /// ```
    /// # use radar_archive::{Archive, Dimensions, Picture, Position, Setting};
    /// # let mut file = Picture::all_empty(Dimensions::of(&[12])?, 0)?.make(Setting::runs())?;
    /// let borrowed = Archive::open(&file)?;
    /// let owned: Archive = borrowed.owned();
    /// file.clear();
    /// assert_eq!(owned.cell(Position(11)), Ok(0));
    /// # Ok::<(), radar_archive::Refusal>(())
    /// ```
    pub fn owned(&self) -> Archive {
        Archive {
            file: self.bytes().to_vec(),
            header: self.header,
        }
    }

    /// The file's kind, width and step.
    pub fn setting(&self) -> Setting {
        self.header.setting
    }

    /// The picture's dimensions.
    pub fn dimensions(&self) -> Dimensions {
        self.header.dimensions
    }

    /// The empty word E.
    pub fn empty(&self) -> u32 {
        self.header.empty
    }

    /// The number of cells.
    pub fn cells(&self) -> u32 {
        self.header.dimensions.four().iter().product()
    }

    /// The number of stored cells, N.
    pub fn stored_count(&self) -> u32 {
        self.header.stored
    }

    /// The word at a position, or 8.
    pub fn cell(&self, position: Position) -> Result<u32, Refusal> {
        calls::opened_cell(self.bytes(), position)
    }

    /// The rank at a position, for an empty cell the number of stored cells before it, or 8.
    pub fn rank(&self, position: Position) -> Result<Ranked, Refusal> {
        calls::opened_rank(self.bytes(), position)
    }

    /// The number of stored cells from one position to another in row order, both inclusive, or 8, also where the first comes after the
    /// second.
    ///
    /// ```
    /// # use radar_archive::{Archive, Dimensions, Picture, Position, Refusal, Setting};
    /// let words = vec![0, 0, 7, 9, 0, 5, 0, 0, 0, 0, 300, 0];
    /// let picture = Picture { dimensions: Dimensions::of(&[12])?, empty: 0, words };
    /// let archive = Archive::open(picture.make(Setting::positions())?)?;
    /// assert_eq!(archive.count(Position(3), Position(5)), Ok(2));
    /// assert_eq!(archive.count(Position(6), Position(9)), Ok(0));
    /// assert_eq!(archive.count(Position(0), Position(11)), Ok(4));
    /// assert_eq!(archive.count(Position(5), Position(4)), Err(Refusal::Beyond));
    /// assert_eq!(archive.count(Position(5), Position(12)), Err(Refusal::Beyond));
    /// # Ok::<(), Refusal>(())
    /// ```
    pub fn count(&self, from: Position, to: Position) -> Result<u32, Refusal> {
        let (first, last) = (self.rank(from)?, self.rank(to)?);
        if to < from {
            return Err(Refusal::Beyond);
        }
        Ok(last.through() - first.before())
    }

    /// The position of a rank, or 8.
    pub fn position(&self, rank: Rank) -> Result<Position, Refusal> {
        calls::opened_position(self.bytes(), rank)
    }

    /// The stored cells in rising order: rank, position and word.
    ///
    /// A file of kind 4 or 6 is changed to kind 2 in memory first, since a lookup by rank there is a pass along the file, in kind 6 from a
    /// jump on.
    ///
    /// ```
    /// # use radar_archive::{Archive, Dimensions, Picture, Position, Rank, Setting};
    /// let words = vec![0, 0, 7, 9, 0, 5, 0, 0, 0, 0, 300, 0];
    /// let picture = Picture { dimensions: Dimensions::of(&[12])?, empty: 0, words };
    /// let file = picture.make(Setting::jumps(1))?;
    /// let archive = Archive::open(file)?;
    /// let cells = archive.stored_cells();
    /// assert_eq!(cells.len(), 4);
    /// let lines: Vec<_> = cells.map(|(Rank(r), Position(p), word)| (r, p, word)).collect();
    /// assert_eq!(lines, [(0, 2, 7), (1, 3, 9), (2, 5, 5), (3, 10, 300)]);
    /// # Ok::<(), radar_archive::Refusal>(())
    /// ```
    pub fn stored_cells(&self) -> StoredCells<'_> {
        StoredCells::of(self)
    }

    /// All words of the picture, in row order.
    pub fn expand(&self) -> Vec<u32> {
        let mut words = vec![0; self.cells() as usize];
        accepted(self.expand_into(&mut words));
        words
    }

    /// Puts all words of the picture in the first elements of a destination, or 10.
    pub fn expand_into(&self, destination: &mut [u32]) -> Result<(), Refusal> {
        calls::expand(self.bytes(), destination)
    }

    /// The picture.
    pub fn picture(&self) -> Picture {
        Picture {
            dimensions: self.dimensions(),
            empty: self.empty(),
            words: self.expand(),
        }
    }

    /// The words of a box, both corners inclusive, in row order, or 8. A corner has as many coordinates as the picture has dimensions.
    ///
    /// ```
    /// # use radar_archive::{Archive, Dimensions, Picture, Refusal, Setting};
    /// let words = (0..12).collect();
    /// let picture = Picture { dimensions: Dimensions::of(&[3, 4])?, empty: 0, words };
    /// let archive = Archive::open(picture.make(Setting::runs())?)?;
    /// assert_eq!(archive.box_words(&[1, 1], &[2, 2])?, [5, 6, 9, 10]);
    /// assert_eq!(archive.box_words(&[1, 1], &[0, 2]), Err(Refusal::Beyond));
    /// assert_eq!(archive.box_words(&[1, 1], &[2, 4]), Err(Refusal::Beyond));
    /// assert_eq!(archive.box_words(&[1], &[2, 2]), Err(Refusal::Beyond));
    /// # Ok::<(), Refusal>(())
    /// ```
    pub fn box_words(&self, low: &[u32], high: &[u32]) -> Result<Vec<u32>, Refusal> {
        let mut words = vec![0; self.box_size(low, high)];
        self.box_into(low, high, &mut words)?;
        Ok(words)
    }

    /// The number of cells of a box that lies inside; any number for another one.
    fn box_size(&self, low: &[u32], high: &[u32]) -> usize {
        let size = low.iter().zip(high).try_fold(1u32, |size, (&low, &high)| {
            size.checked_mul(high.checked_sub(low)?.checked_add(1)?)
        });
        size.map_or(0, |size| size.min(self.cells())) as usize
    }

    /// Puts the words of a box in the first elements of a destination. Tests 8, 10.
    pub fn box_into(
        &self,
        low: &[u32],
        high: &[u32],
        destination: &mut [u32],
    ) -> Result<(), Refusal> {
        let dimensions = self.dimensions();
        let (low, high) = (dimensions.filled(low), dimensions.filled(high));
        calls::box_words(self.bytes(), low.lent(), high.lent(), destination)
    }

    /// The stored bytes of the ranks from `from` up to but not including `to`, as a part of the file's bytes, or 8.
    ///
    /// ```
    /// # use radar_archive::{Archive, Dimensions, Picture, Rank, Refusal, Setting};
    /// let words = vec![0, 0, 7, 9, 0, 5, 0, 0, 0, 0, 300, 0];
    /// let picture = Picture { dimensions: Dimensions::of(&[12])?, empty: 0, words };
    /// let file = picture.make(Setting::positions())?;
    /// let archive = Archive::open(&file)?;
    /// let part = archive.ranks(Rank(1), Rank(3))?;
    /// assert_eq!(part, [9, 0, 0, 0, 5, 0, 0, 0]);
    /// assert_eq!(part.as_ptr(), file[72..].as_ptr());
    /// assert_eq!(archive.ranks(Rank(3), Rank(5)), Err(Refusal::Beyond));
    /// # Ok::<(), Refusal>(())
    /// ```
    pub fn ranks(&self, from: Rank, to: Rank) -> Result<&[u8], Refusal> {
        calls::ranks(self.bytes(), from, to)
    }

    /// The shorter of two files of one picture, this one on equal length, or 11.
    ///
    /// ```
    /// # use radar_archive::{Archive, Dimensions, Picture, Position, Refusal, Setting};
    /// let picture = Picture::all_empty(Dimensions::of(&[12])?, 0)?;
    /// let empty = picture.make(Setting::runs())?;
    /// let stored = Archive::open(&empty)?.write(Position(5), 7)?;
    /// let positions = Archive::open(&stored)?.change(Setting::positions())?;
    ///
    /// let archive = Archive::open(&stored)?;
    /// let other = Archive::open(&positions)?;
    /// assert_eq!(archive.shorter(&other)?.bytes().as_ptr(), positions.as_ptr());
    /// assert_eq!(archive.shorter(&Archive::open(&empty)?).unwrap_err(), Refusal::Other);
    /// # Ok::<(), Refusal>(())
    /// ```
    pub fn shorter<'a, C: AsRef<[u8]>>(
        &'a self,
        other: &'a Archive<C>,
    ) -> Result<Archive<&'a [u8]>, Refusal> {
        let (first, second) = (self.borrowed(), other.borrowed());
        let bytes = calls::shorter(first.file, second.file)?;
        let is_first = core::ptr::eq(bytes, first.file);
        Ok(if is_first { first } else { second })
    }
}

impl<B: AsRef<[u8]>> AsRef<[u8]> for Archive<B> {
    fn as_ref(&self) -> &[u8] {
        self.bytes()
    }
}
