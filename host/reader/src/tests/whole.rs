//! All small pictures, and all small faults in their files.

use super::*;
use crate::*;
use std::collections::HashSet;

/// Settings of every kind whose pages, groups and widths small pictures can fill.
pub(super) fn settings() -> [Setting; 16] {
    [
        (1, 0, 0),
        (2, 0, 0),
        (3, 1, 1),
        (3, 1, 2),
        (3, 2, 3),
        (3, 1, 255),
        (4, 1, 0),
        (4, 2, 0),
        (5, 0, 2),
        (5, 0, 3),
        (5, 0, 64),
        (6, 1, 1),
        (6, 1, 2),
        (6, 2, 1),
        (6, 2, 3),
        (6, 1, 255),
    ]
    .map(|(kind, width, step)| Setting::new(kind, width, step))
}

/// Every picture of so many cells with words 0 and 7.
pub(super) fn pictures(cells: usize) -> Vec<Vec<u32>> {
    (0..1usize << cells)
        .map(|bits| (0..cells).map(|at| 7 * (bits >> at & 1) as u32).collect())
        .collect()
}

/// Every lookup against the definition of rank.
fn lookups_are_right(file: &[u8], words: &[u32]) {
    let says = parsed(file);
    let mut stored = 0;
    for (at, &word) in (0..).zip(words) {
        assert_eq!(says.cell(Position(at)), Ok(word));
        let wanted = match word {
            0 => Ranked::Empty(stored),
            _ => Ranked::Stored(Rank(stored)),
        };
        assert_eq!(says.rank(Position(at)), Ok(wanted));
        if word != 0 {
            assert_eq!(says.position(Rank(stored)), Ok(Position(at)));
            stored += 1;
        }
    }
    assert_eq!(says.position(Rank(stored)), Err(Refusal::Beyond));
    assert_eq!(says.stored(), stored as usize);
    assert_eq!(says.length, file.len());
}

#[test]
fn all_small_pictures_are_made_and_read() {
    for setting in settings() {
        for words in pictures(8) {
            let file = line(setting, &words).unwrap();
            lookups_are_right(&file, &words);
            assert_eq!(expand(&file, 8), Ok(words));
        }
    }
}

#[test]
fn only_the_files_of_pictures_are_accepted() {
    for setting in settings() {
        let files: HashSet<Vec<u8>> = pictures(6)
            .iter()
            .map(|words| line(setting, words).unwrap())
            .collect();
        assert_eq!(files.len(), 64);
        for file in &files {
            for at in 52..field(file, 44) as usize {
                for value in (0..9).chain([255]) {
                    let other = with_byte(file, at, value);
                    let wanted = if files.contains(&other) { 0 } else { 6 };
                    assert_eq!(checked(&other), wanted);
                }
            }
        }
    }
}

#[test]
fn all_small_writes_give_what_make_gives() {
    for setting in settings() {
        for words in pictures(5) {
            let file = line(setting, &words).unwrap();
            for at in 0..5 {
                for word in [0, 7, 8] {
                    let mut after = words.clone();
                    after[at] = word;
                    let written = write(&file, Position(at as u32), word, ROOM);
                    assert_eq!(written, line(setting, &after));
                }
            }
        }
    }
}

#[test]
fn a_picture_of_four_dimensions_keeps_them() {
    let words: Vec<u32> = (0..120).map(|at| at % 3).collect();
    for setting in settings() {
        let file = make(setting, 4, &[2, 3, 4, 5], 1, &words, ROOM).unwrap();
        let says = parsed(&file);
        assert_eq!(says.setting, setting);
        assert_eq!(says.picture.dims.extents, [2, 3, 4, 5]);
        assert_eq!((says.picture.dims.count, says.picture.empty), (4, 1));
        assert_eq!((says.cells(), says.stored()), (120, 80));
        assert_eq!(says.picture.words, words);
    }
}

#[test]
fn a_picture_of_100000_cells_is_quick() {
    let words: Vec<u32> = (0..100_000u32)
        .map(|at| at.wrapping_mul(at) % 7 * (at / 1000 % 2))
        .collect();
    for setting in settings().into_iter().filter(|setting| setting.step < 200) {
        let file = line(setting, &words);
        if setting.kind == 3 && setting.step > 1 && setting.width == 1 {
            assert_eq!(file, Err(Refusal::Unfit));
            continue;
        }
        assert_eq!(expand(&file.unwrap(), ROOM).as_deref(), Ok(&words[..]));
    }
}
