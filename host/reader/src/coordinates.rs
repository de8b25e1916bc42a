//! Coordinates, positions and boxes.

use crate::picture::{Dimensions, Position};
use crate::refusal::Refusal;

/// The position of four coordinates. Tests 4, 8; another number of extents is 4, of coordinates 8.
pub fn coordinates_position(count: u32, extents: &[u32], at: &[u32]) -> Result<Position, Refusal> {
    let dims = Dimensions::lent(count, extents)?;
    let at = lent_coordinates(dims.extents, at)?;
    Ok(row_order(dims.extents, at))
}

/// The four coordinates of a position, 0 past the dimension count. Tests 4, 8, then 10 for room
/// under four numbers.
pub fn position_coordinates(
    count: u32,
    extents: &[u32],
    position: Position,
    room: usize,
) -> Result<[u32; 4], Refusal> {
    let dims = Dimensions::lent(count, extents)?;
    if position.0 >= dims.cells()? {
        return Err(Refusal::Beyond);
    }
    if room < 4 {
        return Err(Refusal::Small);
    }
    let mut rest = position.0;
    let mut at = [0; 4];
    for index in (0..4).rev() {
        at[index] = rest % dims.extents[index];
        rest /= dims.extents[index];
    }
    Ok(at)
}

/// Four coordinates inside their extents, or 8. Past the dimension count the extent is 1, so the
/// coordinate must be 0.
pub(crate) fn lent_coordinates(extents: [u32; 4], at: &[u32]) -> Result<[u32; 4], Refusal> {
    let at = <[u32; 4]>::try_from(at).map_err(|_| Refusal::Beyond)?;
    if at.iter().zip(&extents).all(|(at, extent)| at < extent) {
        Ok(at)
    } else {
        Err(Refusal::Beyond)
    }
}

/// The position of coordinates that lie inside, the last dimension running fastest.
fn row_order(extents: [u32; 4], at: [u32; 4]) -> Position {
    let mut position = 0;
    for index in 0..4 {
        position = position * extents[index] + at[index];
    }
    Position(position)
}

/// The positions of a box in row order, or 8 for a low corner above the high one.
pub(crate) fn box_positions(
    extents: [u32; 4],
    low: [u32; 4],
    high: [u32; 4],
) -> Result<Vec<Position>, Refusal> {
    if low.iter().zip(&high).any(|(low, high)| low > high) {
        return Err(Refusal::Beyond);
    }
    let mut positions = Vec::new();
    for first in low[0]..=high[0] {
        for second in low[1]..=high[1] {
            for third in low[2]..=high[2] {
                for fourth in low[3]..=high[3] {
                    positions.push(row_order(extents, [first, second, third, fourth]));
                }
            }
        }
    }
    Ok(positions)
}
