//! The picture, its setting, and the rules of numbers 2, 3 and 4.

use crate::refusal::Refusal;

/// The most cells that a picture may have.
pub const MOST_CELLS: u32 = 16_777_216;

/// A position in the picture, in row order from 0.
#[derive(Clone, Copy, Debug, PartialEq, Eq, PartialOrd, Ord)]
pub struct Position(pub u32);

/// A rank among the stored words, from 0.
#[derive(Clone, Copy, Debug, PartialEq, Eq, PartialOrd, Ord)]
pub struct Rank(pub u32);

/// Kind, width and step, as wide as a caller may hand them in.
#[derive(Clone, Copy, Debug, PartialEq, Eq)]
pub struct Setting {
    /// The header kind, 1 to 6.
    pub kind: u32,
    /// Bytes of an offset or difference, in kinds 3, 4 and 6.
    pub width: u32,
    /// Ranks for each base in kind 3, entries of a page in kind 5, jumps for each pointer in kind
    /// 6.
    pub step: u32,
}

impl Setting {
    /// A setting of these three numbers, not checked.
    pub fn new(kind: u32, width: u32, step: u32) -> Setting {
        Setting { kind, width, step }
    }

    /// Tests 2 and 3.
    pub fn check(self) -> Result<(), Refusal> {
        let allowed = match self.kind {
            1 | 2 => self.width == 0 && self.step == 0,
            3 => (1..=2).contains(&self.width) && (1..=255).contains(&self.step),
            4 => (1..=2).contains(&self.width) && self.step == 0,
            5 => self.width == 0 && (2..=64).contains(&self.step),
            6 => (1..=2).contains(&self.width) && (1..=255).contains(&self.step),
            _ => return Err(Refusal::Kind),
        };
        if allowed {
            Ok(())
        } else {
            Err(Refusal::Setting)
        }
    }
}

/// Dimension count and extents; extents past the count are 1.
#[derive(Clone, Copy, Debug, PartialEq, Eq)]
pub struct Dimensions {
    /// The number of dimensions, 1 to 4.
    pub count: u32,
    /// The extents, first dimension first.
    pub extents: [u32; 4],
}

impl Dimensions {
    /// The dimensions that a caller lends. Tests 4; a slice that hasn't four extents is 4 too.
    pub fn lent(count: u32, extents: &[u32]) -> Result<Dimensions, Refusal> {
        let extents = <[u32; 4]>::try_from(extents).map_err(|_| Refusal::Extent)?;
        let dims = Dimensions { count, extents };
        dims.cells()?;
        Ok(dims)
    }

    /// The number of cells, or 4.
    pub fn cells(&self) -> Result<u32, Refusal> {
        if !(1..=4).contains(&self.count) {
            return Err(Refusal::Extent);
        }
        let mut cells: u32 = 1;
        for (index, &extent) in (0u32..).zip(&self.extents) {
            if extent == 0 || (index >= self.count && extent != 1) {
                return Err(Refusal::Extent);
            }
            cells = match cells.checked_mul(extent) {
                Some(product) if product <= MOST_CELLS => product,
                _ => return Err(Refusal::Extent),
            };
        }
        Ok(cells)
    }
}

/// A picture: dimensions, empty word, and one word for each cell in row order.
#[derive(Clone, Debug, PartialEq, Eq)]
pub struct Picture {
    /// The dimensions.
    pub dims: Dimensions,
    /// The empty word E.
    pub empty: u32,
    /// The words of all cells.
    pub words: Vec<u32>,
}

impl Picture {
    /// The positions of the stored cells, rising; the index is the rank.
    pub fn stored_positions(&self) -> Vec<u32> {
        stored_positions(self.empty, &self.words)
    }
}

/// The positions whose word isn't the empty word, rising.
pub(crate) fn stored_positions(empty: u32, words: &[u32]) -> Vec<u32> {
    let mut positions = Vec::new();
    for (position, &word) in words.iter().enumerate() {
        if word != empty {
            positions.push(position as u32);
        }
    }
    positions
}
