//! Files whose parts hold any numbers, and whose counts, offsets and length agree.

use radar_archive::Kind;
use side_by_side::random::Random;
use side_by_side::settings;

use crate::files::{self, Part};

/// A file of few stored cells and any parts.
pub fn any(random: &mut Random) -> Vec<u8> {
    let setting = settings::engine(settings::any(random));
    let (width, step) = (setting.width as usize, setting.step as usize);
    let cells = random.one_of(&[1, 2, 3, 5, 8, 300, 70_000]);
    let stored = random.below(cells.min(8) + 1);
    let free = random.below(stored + 1);
    let free = random.one_of(&[free, stored, stored.min(1)]);
    let (first, second) = match setting.kind {
        Kind::Runs => (pairs(free, cells, random), files::none()),
        Kind::Positions => (singles(stored, cells, random), files::none()),
        Kind::BaseOffset => (
            singles(stored.div_ceil(step), cells, random),
            small(stored, width, random),
        ),
        Kind::Jumps => (singles(free, cells, random), small(stored, width, random)),
        Kind::PointedJumps => (
            singles(free, cells, random),
            pointed(stored, width, free.div_ceil(step), random),
        ),
        Kind::PagedRuns => (
            pairs(upper_entries(free, step), cells, random),
            pairs(free, cells, random),
        ),
    };
    let words: Vec<u32> = (0..stored).map(|_| random.below(30) as u32).collect();
    files::raw(setting, cells as u32, first, second, &words)
}

/// Numbers below the cells, rising in every other case.
fn numbers(count: usize, cells: usize, random: &mut Random) -> Vec<u32> {
    let mut numbers: Vec<u32> = (0..count).map(|_| random.below(cells) as u32).collect();
    if random.once_in(2) {
        numbers.sort();
    }
    numbers
}

/// A part of numbers of 4 bytes.
fn singles(count: usize, cells: usize, random: &mut Random) -> Part {
    files::singles(&numbers(count, cells, random))
}

/// A part of pairs.
fn pairs(count: usize, cells: usize, random: &mut Random) -> Part {
    (
        count as u32,
        files::fours(&numbers(2 * count, cells, random)),
    )
}

/// A part of numbers of `width` bytes, each 0 to 2.
fn small(count: usize, width: usize, random: &mut Random) -> Part {
    let bytes = (0..count * width).map(|_| random.below(3) as u8);
    (count as u32, bytes.collect())
}

/// A part of numbers of `width` bytes, and pointers behind them.
fn pointed(count: usize, width: usize, pointers: usize, random: &mut Random) -> Part {
    let (count, differences) = small(count, width, random);
    let pointers = numbers(pointers, count as usize, random);
    (count, [differences, files::fours(&pointers)].concat())
}

/// The entries above level 0 of kind 5.
fn upper_entries(runs: usize, step: usize) -> usize {
    if runs <= step {
        return 0;
    }
    let pages = runs.div_ceil(step);
    pages + upper_entries(pages, step)
}
