//! The largest pictures: 16,777,216 cells.

mod common;

use common::stored_at;
use radar_archive::{calls, Position, Rank};
use side_by_side::settings::{self, Setting};
use side_by_side::sides::Sides;

const CELLS: u32 = 16_777_216;

/// The file of some words with the empty word 0, on which both sides agree.
fn made(setting: Setting, dimensions: u32, extents: [u32; 4], words: &[u32]) -> Vec<u8> {
    let reader = settings::reader(setting);
    let file = reader::make(reader, dimensions, &extents, 0, words, usize::MAX).unwrap();
    let mut made = vec![9; file.len()];
    let answer = calls::make(setting, dimensions, &extents, 0, words, &mut made);
    assert_eq!(answer, Ok(file.len()));
    assert!(made == file);
    file
}

/// The lookups at the stored positions of a file and beside them, and the words of all cells.
fn reads(sides: &mut Sides, file: &[u8], stored: &[usize], words: &[u32]) {
    let checked = sides.check(file);
    let says = checked.as_ref().unwrap();
    for (rank, &position) in (0..).zip(stored) {
        let position = position as u32;
        for beside in [position, position + 1, position.saturating_sub(1)] {
            sides.opened(file, says, beside, rank);
            sides.cell(file, &checked, beside);
            sides.rank(file, &checked, beside);
        }
        assert_eq!(calls::position(file, Rank(rank)), Ok(Position(position)));
    }
    let mut expanded = vec![9; words.len()];
    assert_eq!(calls::expand(file, &mut expanded), Ok(()));
    assert!(expanded == words);
}

/// A line of few stored cells.
fn sparse_line() {
    let mut sides = Sides::new(6);
    let stored = [
        0, 1, 255, 256, 511, 65_791, 131_327, 131_328, 8_000_000, 16_777_214, 16_777_215,
    ];
    let words = stored_at(CELLS as usize, &stored);
    for setting in [
        [1, 0, 0],
        [2, 0, 0],
        [3, 2, 1],
        [4, 1, 0],
        [4, 2, 0],
        [5, 0, 2],
        [6, 1, 1],
        [6, 1, 3],
        [6, 2, 2],
        [6, 2, 255],
    ] {
        let file = made(setting, 1, [CELLS, 1, 1, 1], &words);
        reads(&mut sides, &file, &stored, &words);
    }
}

/// A square of stored cells only.
fn full_square() {
    let words: Vec<u32> = (1..=CELLS).collect();
    for setting in [[1, 0, 0], [3, 1, 255], [4, 1, 0], [5, 0, 64], [6, 1, 1]] {
        let file = made(setting, 2, [4_096, 4_096, 1, 1], &words);
        assert_eq!(calls::check(&file), Ok(()));
    }
}

#[test]
fn the_largest_pictures_agree() {
    sparse_line();
    full_square();
}
