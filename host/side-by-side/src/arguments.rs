//! Arguments of calls on a picture or a file, right and wrong ones.

use reader::Parsed;

use crate::random::Random;
use crate::textures::Sketch;

/// Dimensions of which something is mostly wrong.
pub fn wrong_extents(sketch: &Sketch, random: &mut Random) -> (u32, Vec<u32>) {
    let mut dimensions = sketch.dimensions;
    let mut extents = sketch.extents.to_vec();
    let word = random.word();
    match random.below(6) {
        0 => dimensions = random.one_of(&[0, 5, 257, 260, u32::MAX, dimensions - 1]),
        1 => {
            extents.pop();
        }
        2 => extents.push(1),
        3 => {
            extents = random
                .one_of(&[
                    [65_536; 4],
                    [1 << 31, 2, 1, 1],
                    [1 << 24, 1, 1, 2],
                    [65_536, 65_536, 0, 1],
                ])
                .to_vec()
        }
        _ => {
            let at = random.below(4);
            extents[at] = random.one_of(&[0, 2, 16_777_216, 16_777_217, 1 << 31, u32::MAX, word]);
        }
    }
    (dimensions, extents)
}

/// Coordinates mostly inside some extents.
pub fn corner(extents: &[u32], random: &mut Random) -> Vec<u32> {
    let mut at: Vec<u32> = extents
        .iter()
        .map(|&extent| random.below(extent.max(1) as usize) as u32)
        .collect();
    match random.below(12) {
        0 => {
            let index = random.below(at.len().max(1));
            let word = random.word();
            if let Some(number) = at.get_mut(index) {
                *number = random.one_of(&[
                    extents[index],
                    extents[index].wrapping_add(1),
                    u32::MAX,
                    word,
                ]);
            }
        }
        1 => {
            at.pop();
        }
        2 => at.push(0),
        _ => {}
    }
    at
}

/// A position: of a stored cell, beside one, anywhere, or outside.
pub fn any_position(says: &Parsed, random: &mut Random) -> u32 {
    let cells = says.cells() as u32;
    let at = random.below(cells as usize) as u32;
    if random.once_in(8) {
        let word = random.word();
        return random.one_of(&[cells, cells + 1, u32::MAX, word, 1 << 24]);
    }
    if says.stored() == 0 || random.once_in(3) {
        return random.one_of(&[at, 0, cells - 1]);
    }
    let stored = says.positions[random.below(says.stored())];
    random.one_of(&[stored, stored + 1, stored.saturating_sub(1)])
}

/// A rank, mostly below N.
pub fn any_rank(says: &Parsed, random: &mut Random) -> u32 {
    let stored = says.stored();
    let rank = random.below(stored + 1) as u32;
    let last = (stored as u32).saturating_sub(1);
    random.one_of(&[
        rank,
        rank,
        rank,
        0,
        last,
        stored as u32,
        stored as u32 + 1,
        u32::MAX,
    ])
}
