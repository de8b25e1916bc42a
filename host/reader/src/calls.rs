//! The calls, each over whole files.

use crate::check::{check, Ranked};
use crate::layout::{fitting, put_out};
use crate::picture::{Dimensions, Position, Rank, Setting};
use crate::refusal::Refusal;

/// The file of a picture. Tests 2, 3, 4, 7, 9, 10; room counts bytes.
pub fn make(
    setting: Setting,
    count: u32,
    extents: &[u32],
    empty: u32,
    words: &[u32],
    room: usize,
) -> Result<Vec<u8>, Refusal> {
    setting.check()?;
    let dims = Dimensions::lent(count, extents)?;
    if words.len() != dims.cells()? as usize {
        return Err(Refusal::Picture);
    }
    put_out(setting, dims, empty, words, room)
}

/// The file after writing one cell, in its own setting. Tests 1 to 6, 8, 9, 10; room counts bytes.
pub fn write(file: &[u8], position: Position, word: u32, room: usize) -> Result<Vec<u8>, Refusal> {
    let parsed = check(file)?;
    let mut picture = parsed.picture;
    let cell = picture.words.get_mut(position.0 as usize);
    *cell.ok_or(Refusal::Beyond)? = word;
    put_out(
        parsed.setting,
        picture.dims,
        picture.empty,
        &picture.words,
        room,
    )
}

/// The file in another setting. Tests 1 to 6 of the file, 2 and 3 of the setting, 9, 10; room
/// counts bytes.
pub fn change(file: &[u8], setting: Setting, room: usize) -> Result<Vec<u8>, Refusal> {
    let picture = check(file)?.picture;
    setting.check()?;
    put_out(setting, picture.dims, picture.empty, &picture.words, room)
}

/// All words of the picture. Tests 1 to 6, 10; room counts words.
pub fn expand(file: &[u8], room: usize) -> Result<Vec<u32>, Refusal> {
    fitting(check(file)?.picture.words, room)
}

/// The word at a position. Tests 1 to 6, 8.
pub fn cell(file: &[u8], position: Position) -> Result<u32, Refusal> {
    check(file)?.cell(position)
}

/// The rank at a position, or for an empty cell the number of stored cells before it. Tests 1 to 6,
/// 8.
pub fn rank(file: &[u8], position: Position) -> Result<Ranked, Refusal> {
    check(file)?.rank(position)
}

/// The position of a rank. Tests 1 to 6, 8.
pub fn position(file: &[u8], rank: Rank) -> Result<Position, Refusal> {
    check(file)?.position(rank)
}

/// The words of a box, both corners inclusive, in row order. Tests 1 to 6, 8, 10; room counts
/// words.
pub fn box_words(file: &[u8], low: &[u32], high: &[u32], room: usize) -> Result<Vec<u32>, Refusal> {
    fitting(check(file)?.box_words(low, high)?, room)
}

/// Offset and length in bytes of the stored words of ranks `from` up to but not including `to`.
/// Tests 1 to 6, 8.
pub fn rank_range(file: &[u8], from: Rank, to: Rank) -> Result<(usize, usize), Refusal> {
    check(file)?.rank_range(from, to)
}

/// Which of two files of one picture is shorter: 0 the first, also on equal length, or 1 the
/// second. Tests 1 to 6 of the first, 1 to 6 of the second, 11.
pub fn shorter(first: &[u8], second: &[u8]) -> Result<u32, Refusal> {
    let one = check(first)?;
    let two = check(second)?;
    if one.picture != two.picture {
        return Err(Refusal::Other);
    }
    Ok(u32::from(second.len() < first.len()))
}
