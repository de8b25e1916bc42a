//! The calls on lent buffers, as the C interface has them: no allocation, any bytes and any numbers.
//!
//! Each call is total. A refused call leaves its destination unchanged; an accepted one fills the destination's first elements and
//! leaves the rest. Files are made in bytes; expand, box and coordinates are put out in words of 32 bits. Each call on a file makes the
//! complete check of that file first, except those whose name begins with `opened`. A setting is a [`Setting`](crate::Setting) or any
//! three numbers: kind, width, step.
//!
//! ```
//! use radar_archive::{calls, Position, Rank, Ranked, Refusal, Setting};
//!
//! let words = [0, 0, 7, 9, 0, 5, 0, 0, 0, 0, 300, 0];
//! let mut destination = [0; 100];
//! let length = calls::make(Setting::positions(), 1, &[12, 1, 1, 1], 0, &words, &mut destination)?;
//! let file = &destination[..length];
//! assert_eq!(length, 84);
//! assert_eq!(calls::check(file), Ok(()));
//! assert_eq!(calls::cell(file, Position(10)), Ok(300));
//! assert_eq!(calls::rank(file, Position(5)), Ok(Ranked::Stored(Rank(2))));
//! assert_eq!(calls::rank(file, Position(6)), Ok(Ranked::Empty(3)));
//! assert_eq!(calls::position(file, Rank(3)), Ok(Position(10)));
//! assert_eq!(calls::position(file, Rank(4)), Err(Refusal::Beyond));
//! assert_eq!(calls::change(file, [7, 0, 0], &mut [0; 100]), Err(Refusal::Kind));
//! # Ok::<(), Refusal>(())
//! ```

use crate::header;
use crate::{ffi, Position, Rank, Ranked, Refusal};

/// The code of a lookup's answer that says the cell is empty.
const EMPTY: u32 = 255;

/// The refusal of a number. The engine gives none but 1 to 11.
fn refusal(number: u32) -> Refusal {
    match Refusal::of_number(number) {
        Some(refusal) => refusal,
        None => panic!("the engine answered {number}, which is no number of the signal list"),
    }
}

/// A plain answer.
fn plain(number: u32) -> Result<(), Refusal> {
    match number {
        0 => Ok(()),
        number => Err(refusal(number)),
    }
}

/// The answer of a rank lookup.
fn ranked(answer: u64) -> Result<Ranked, Refusal> {
    let value = answer as u32;
    match (answer >> 32) as u32 {
        0 => Ok(Ranked::Stored(Rank(value))),
        EMPTY => Ok(Ranked::Empty(value)),
        number => Err(refusal(number)),
    }
}

/// The answer of any other lookup, which is never "empty".
fn given(answer: u64) -> Result<u32, Refusal> {
    match ranked(answer)? {
        Ranked::Stored(Rank(value)) => Ok(value),
        Ranked::Empty(_) => {
            panic!("the engine answered that the cell is empty where there is always a value")
        }
    }
}

/// The length of the file put out, if it was.
fn put_out(number: u32, destination: &[u8]) -> Result<usize, Refusal> {
    plain(number)?;
    Ok(header::length(destination))
}

/// The complete check of a file: the first of 1 to 6 that applies.
pub fn check(file: &[u8]) -> Result<(), Refusal> {
    plain(ffi::check(file))
}

/// Puts out what the header says, eleven numbers: kind, width, step, dimension count, cells, E, N and the four extents. Tests 1 to 6,
/// 10.
pub fn info(file: &[u8], destination: &mut [u32]) -> Result<(), Refusal> {
    plain(ffi::info(file, destination))
}

/// Puts out the file of a picture and gives its length. Tests 2, 3, 4, 7, 9, 10. `extents` has four numbers, 1 past the dimension
/// count (another number of them is 4); `words` has one word for each cell.
pub fn make(
    setting: impl Into<[u32; 3]>,
    dimensions: u32,
    extents: &[u32],
    empty: u32,
    words: &[u32],
    destination: &mut [u8],
) -> Result<usize, Refusal> {
    let setting = setting.into();
    let number = ffi::make(setting, dimensions, extents, empty, words, destination);
    put_out(number, destination)
}

/// Puts out the file after writing one cell, in its own setting, and gives its length. Tests 1 to 6, 8, 9, 10. Writing the empty word
/// empties the cell.
pub fn write(
    file: &[u8],
    position: Position,
    word: u32,
    destination: &mut [u8],
) -> Result<usize, Refusal> {
    put_out(ffi::write(file, position.0, word, destination), destination)
}

/// Puts out the file in another setting and gives its length. Tests 1 to 6 of the file, 2 and 3 of the setting, 9, 10.
pub fn change(
    file: &[u8],
    setting: impl Into<[u32; 3]>,
    destination: &mut [u8],
) -> Result<usize, Refusal> {
    let number = ffi::change(file, setting.into(), destination);
    put_out(number, destination)
}

/// Puts out all words of the picture. Tests 1 to 6, 10.
pub fn expand(file: &[u8], destination: &mut [u32]) -> Result<(), Refusal> {
    plain(ffi::expand(file, destination))
}

/// The word at a position. Tests 1 to 6, 8.
pub fn cell(file: &[u8], position: Position) -> Result<u32, Refusal> {
    given(ffi::cell(file, position.0))
}

/// The rank at a position, for an empty cell the number of stored cells before it. Tests 1 to 6, 8.
pub fn rank(file: &[u8], position: Position) -> Result<Ranked, Refusal> {
    ranked(ffi::rank(file, position.0))
}

/// The position of a rank. Tests 1 to 6, 8.
pub fn position(file: &[u8], rank: Rank) -> Result<Position, Refusal> {
    given(ffi::position(file, rank.0)).map(Position)
}

/// The position of four coordinates, 0 past the dimension count. Tests 4, 8. Another number of extents is 4, of coordinates 8.
pub fn coordinates_position(
    dimensions: u32,
    extents: &[u32],
    at: &[u32],
) -> Result<Position, Refusal> {
    given(ffi::coordinates_position(dimensions, extents, at)).map(Position)
}

/// Puts out the four coordinates of a position. Tests 4, 8, then 10 for a destination shorter than four.
pub fn position_coordinates(
    dimensions: u32,
    extents: &[u32],
    position: Position,
    destination: &mut [u32],
) -> Result<(), Refusal> {
    plain(ffi::position_coordinates(
        dimensions,
        extents,
        position.0,
        destination,
    ))
}

/// Puts out the words of a box, both corners inclusive, in row order. Tests 1 to 6, 8, 10. A corner that has not four coordinates is 8.
pub fn box_words(
    file: &[u8],
    low: &[u32],
    high: &[u32],
    destination: &mut [u32],
) -> Result<(), Refusal> {
    plain(ffi::box_words(file, low, high, destination))
}

/// The stored bytes of the ranks from `from` up to but not including `to`, as a part of the file. Tests 1 to 6, 8.
pub fn ranks(file: &[u8], from: Rank, to: Rank) -> Result<&[u8], Refusal> {
    let start = given(ffi::ranks(file, from.0, to.0))? as usize;
    Ok(&file[start..start + 4 * (to.0 - from.0) as usize])
}

/// The shorter of two files of one picture, the first on equal length. Tests 1 to 6 of the first, 1 to 6 of the second, 11.
pub fn shorter<'a>(first: &'a [u8], second: &'a [u8]) -> Result<&'a [u8], Refusal> {
    let which = given(ffi::shorter(first, second))?;
    Ok(if which == 0 { first } else { second })
}

/// The word at a position by the header's own counts, nothing checked: as [`cell()`] on an accepted file, 8 or any word on other bytes.
pub fn opened_cell(file: &[u8], position: Position) -> Result<u32, Refusal> {
    given(ffi::opened_cell(file, position.0))
}

/// The rank at a position by the header's own counts, nothing checked: as [`rank`] on an accepted file; on other bytes 8, an empty cell
/// with any number, or a rank below the N that the header claims.
pub fn opened_rank(file: &[u8], position: Position) -> Result<Ranked, Refusal> {
    ranked(ffi::opened_rank(file, position.0))
}

/// The position of a rank by the header's own counts, nothing checked: as [`position`] on an accepted file; 8, or a position below the
/// cells that the header claims on other bytes.
pub fn opened_position(file: &[u8], rank: Rank) -> Result<Position, Refusal> {
    given(ffi::opened_position(file, rank.0)).map(Position)
}
