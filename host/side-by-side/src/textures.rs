//! Pictures of many textures.

use crate::random::Random;

/// The names of all textures.
pub const NAMES: &[&str] = &[
    "empty",
    "full",
    "one cell",
    "edges",
    "every other cell",
    "scattered",
    "runs",
    "gaps of 254 to 257",
    "many jumps",
    "gaps of 65,534 to 65,537",
];

/// A picture for both sides.
#[derive(Clone, Debug)]
pub struct Sketch {
    /// The texture's name.
    pub name: &'static str,
    /// The dimension count.
    pub dimensions: u32,
    /// The extents, 1 past the count.
    pub extents: [u32; 4],
    /// The empty word.
    pub empty: u32,
    /// The words of all cells.
    pub words: Vec<u32>,
}

impl Sketch {
    /// A picture of a texture.
    pub fn of(name: &'static str, random: &mut Random) -> Sketch {
        let shape = stored(name, random);
        let (dimensions, extents) = any_extents(shape.len() as u32, random);
        let empty = any_empty(random);
        let words = shape
            .iter()
            .map(|&stored| {
                if stored {
                    any_word(empty, random)
                } else {
                    empty
                }
            })
            .collect();
        Sketch {
            name,
            dimensions,
            extents,
            empty,
            words,
        }
    }

    /// The number of cells.
    pub fn cells(&self) -> u32 {
        self.words.len() as u32
    }
}

/// An empty word, often not 0.
pub fn any_empty(random: &mut Random) -> u32 {
    let word = random.word();
    random.one_of(&[0, 0, 0, 1, 7, 256, u32::MAX, word])
}

/// A word that is not the empty one.
pub fn any_word(empty: u32, random: &mut Random) -> u32 {
    loop {
        let word = random.word();
        let word = random.one_of(&[0, 1, 7, 255, 256, 65_535, 65_536, 1 << 31, u32::MAX, word]);
        if word != empty {
            return word;
        }
    }
}

/// For each cell whether it is stored.
fn stored(name: &str, random: &mut Random) -> Vec<bool> {
    let cells = if random.once_in(3) {
        random.within(1, 12)
    } else {
        random.within(1, 400)
    };
    let mut shape = vec![false; cells];
    match name {
        "empty" => {}
        "full" => shape.fill(true),
        "one cell" => {
            let at = random.below(cells);
            shape[random.one_of(&[0, at, cells - 1])] = true;
        }
        "edges" => {
            let most = cells.min(4);
            let (start, end) = (random.below(most + 1), random.below(most + 1));
            shape[..start].fill(true);
            shape[cells - end..].fill(true);
        }
        "every other cell" => {
            for at in (random.below(2)..cells).step_by(2) {
                shape[at] = true;
            }
        }
        "scattered" => {
            let once = random.one_of(&[2, 4, 10, 50]);
            shape.fill_with(|| random.once_in(once));
        }
        "runs" => return runs(random),
        "gaps of 254 to 257" => {
            let count = random.within(1, 12);
            return gaps(&[254, 255, 256, 257, 1, 2], count, random);
        }
        "many jumps" => {
            let count = random.within(13, 60);
            return gaps(&[255, 256, 257, 1], count, random);
        }
        _ => {
            let count = random.within(1, 4);
            return gaps(&[65_534, 65_535, 65_536, 65_537, 1], count, random);
        }
    }
    shape
}

/// Runs of stored cells, each after some empty cells or none.
fn runs(random: &mut Random) -> Vec<bool> {
    let longest = random.one_of(&[2, 3, 10, 300]);
    let mut shape = Vec::new();
    for _ in 0..random.within(1, 70) {
        let (empties, cells) = (random.within(0, longest), random.within(1, longest));
        shape.resize(shape.len() + empties, false);
        shape.resize(shape.len() + cells, true);
    }
    let trailing = random.within(0, 3);
    shape.resize(shape.len() + trailing, false);
    shape
}

/// Stored cells with differences between them taken from some.
fn gaps(differences: &[usize], count: usize, random: &mut Random) -> Vec<bool> {
    let start = random.one_of(&[0, 0, 1, 5, 255, 256]);
    let mut shape = vec![false; start];
    shape.push(true);
    for _ in 0..count {
        let difference = random.one_of(differences);
        shape.resize(shape.len() + difference - 1, false);
        shape.push(true);
    }
    let trailing = random.within(0, 3);
    shape.resize(shape.len() + trailing, false);
    shape
}

/// Dimensions of so many cells.
pub fn any_extents(cells: u32, random: &mut Random) -> (u32, [u32; 4]) {
    let dimensions = random.within(1, 4);
    let mut extents = [1; 4];
    let mut rest = cells;
    for extent in extents.iter_mut().take(dimensions - 1) {
        let divisors: Vec<u32> = (1..=rest.min(64))
            .filter(|&divisor| rest % divisor == 0)
            .collect();
        *extent = random.one_of(&divisors);
        rest /= *extent;
    }
    extents[dimensions - 1] = rest;
    if random.once_in(2) {
        extents[..dimensions].reverse();
    }
    (dimensions as u32, extents)
}
