//! Which positions and ranks of an accepted file are looked up.

use reader::Parsed;

use crate::control::Control;

/// Pictures of at most so many cells are looked up at every position and rank.
const ALL: usize = 48;

/// A number of the control block, below `end` unless it is to be taken as it is.
pub fn reduced(number: u32, end: usize, control: &Control) -> u32 {
    if control.plain {
        number
    } else {
        number % end.max(1) as u32
    }
}

/// The positions: all of a small picture; otherwise the ends, the one of the control block, and those around some stored cells.
pub fn positions(says: &Parsed, control: &Control) -> Vec<u32> {
    let cells = says.cells() as u32;
    let mut points = vec![reduced(control.position, says.cells() + 1, control)];
    points.extend([cells - 1, cells, u32::MAX]);
    if says.cells() <= ALL {
        points.extend(0..cells);
        return points;
    }
    for rank in ranks(says, control) {
        if let Some(&position) = says.positions.get(rank as usize) {
            points.extend([position.saturating_sub(1), position, position + 1]);
        }
    }
    points
}

/// The ranks: all of a small file; otherwise the ends and the one of the control block with its neighbours.
pub fn ranks(says: &Parsed, control: &Control) -> Vec<u32> {
    let stored = says.stored() as u32;
    let chosen = reduced(control.rank, says.stored() + 1, control);
    let mut ranks = vec![chosen, chosen.saturating_add(1), u32::MAX];
    if says.stored() <= ALL {
        ranks.extend(0..=stored);
    } else {
        ranks.extend([0, 1, stored - 1, stored]);
        ranks.push(stored / 2);
    }
    ranks
}
