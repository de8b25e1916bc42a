//! The complete check, and the lookups over a checked file.

use crate::coordinates::{box_positions, lent_coordinates};
use crate::decode;
use crate::header::Header;
use crate::layout::lay_out;
use crate::picture::{Picture, Position, Rank, Setting};
use crate::refusal::Refusal;

/// What an accepted file says.
#[derive(Clone, Debug, PartialEq, Eq)]
pub struct Parsed {
    /// The file's kind, width and step.
    pub setting: Setting,
    /// The picture.
    pub picture: Picture,
    /// The positions of the stored cells; the index is the rank.
    pub positions: Vec<u32>,
    /// The offset of the stored words in the file.
    pub words_at: usize,
    /// The length of the file in bytes.
    pub length: usize,
}

/// What the rank lookup finds at a position.
#[derive(Clone, Copy, Debug, PartialEq, Eq)]
pub enum Ranked {
    /// The cell is stored, and has this rank.
    Stored(Rank),
    /// The cell is empty, and so many stored cells come before it.
    Empty(u32),
}

/// The complete check of a file: what it says, or the first of 1 to 6 that applies.
pub fn check(bytes: &[u8]) -> Result<Parsed, Refusal> {
    let header = Header::read(bytes)?;
    header.setting.check()?;
    let cells = header.dims.cells()?;
    header.check_counts(cells, bytes.len())?;
    let words = decode::words(&header, cells, bytes).ok_or(Refusal::Body)?;
    let again = lay_out(header.setting, header.dims, header.empty, &words);
    if again.as_deref() != Ok(bytes) {
        return Err(Refusal::Body);
    }
    let picture = Picture {
        dims: header.dims,
        empty: header.empty,
        words,
    };
    Ok(Parsed {
        setting: header.setting,
        positions: picture.stored_positions(),
        picture,
        words_at: header.words_at as usize,
        length: bytes.len(),
    })
}

impl Parsed {
    /// The number of cells.
    pub fn cells(&self) -> usize {
        self.picture.words.len()
    }

    /// The number of stored cells, N.
    pub fn stored(&self) -> usize {
        self.positions.len()
    }

    /// The word at a position, or 8.
    pub fn cell(&self, position: Position) -> Result<u32, Refusal> {
        let word = self.picture.words.get(position.0 as usize);
        word.copied().ok_or(Refusal::Beyond)
    }

    /// The rank at a position, for an empty cell the number of stored cells before it, or 8.
    pub fn rank(&self, position: Position) -> Result<Ranked, Refusal> {
        let word = self.cell(position)?;
        // The positions rise, so this counts the lower ones.
        let before = self.positions.partition_point(|&p| p < position.0) as u32;
        Ok(if word == self.picture.empty {
            Ranked::Empty(before)
        } else {
            Ranked::Stored(Rank(before))
        })
    }

    /// The position of a rank, or 8.
    pub fn position(&self, rank: Rank) -> Result<Position, Refusal> {
        let position = self.positions.get(rank.0 as usize);
        position.map(|&p| Position(p)).ok_or(Refusal::Beyond)
    }

    /// The words of a box, both corners inclusive, in row order, or 8.
    pub fn box_words(&self, low: &[u32], high: &[u32]) -> Result<Vec<u32>, Refusal> {
        let extents = self.picture.dims.extents;
        let low = lent_coordinates(extents, low)?;
        let high = lent_coordinates(extents, high)?;
        let positions = box_positions(extents, low, high)?;
        positions.into_iter().map(|p| self.cell(p)).collect()
    }

    /// Offset and length in bytes of the stored words of ranks `from` up to but not `to`, or 8.
    pub fn rank_range(&self, from: Rank, to: Rank) -> Result<(usize, usize), Refusal> {
        if from > to || to.0 as usize > self.stored() {
            return Err(Refusal::Beyond);
        }
        let offset = self.words_at + 4 * from.0 as usize;
        Ok((offset, 4 * (to.0 - from.0) as usize))
    }
}
