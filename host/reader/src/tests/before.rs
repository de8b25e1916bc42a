//! S-9 (A18): the number of stored cells before an empty cell.

use super::whole::{pictures, settings};
use super::*;
use crate::*;
use Ranked::{Empty, Stored};

/// Both rank lookups at a position, which must give the same.
fn found(file: &[u8], at: usize) -> Result<Ranked, Refusal> {
    let at = Position(at as u32);
    let direct = rank(file, at);
    assert_eq!(parsed(file).rank(at), direct);
    direct
}

/// What the rank lookup finds at every position.
fn row(file: &[u8]) -> Vec<Ranked> {
    let cells = parsed(file).cells();
    (0..cells).map(|at| found(file, at).unwrap()).collect()
}

/// The number in an answer: the stored cells before, in both cases.
fn before(ranked: Ranked) -> u32 {
    match ranked {
        Stored(Rank(before)) | Empty(before) => before,
    }
}

#[test]
fn the_sample_at_every_position() {
    let wanted = [
        Empty(0),
        Empty(0),
        Stored(Rank(0)),
        Stored(Rank(1)),
        Empty(2),
        Stored(Rank(2)),
        Empty(3),
        Empty(3),
        Empty(3),
        Empty(3),
        Stored(Rank(3)),
        Empty(4),
    ];
    for setting in sample_settings() {
        let file = sample(setting);
        assert_eq!(found(&file, 0), Ok(Empty(0)));
        assert_eq!(found(&file, 6), Ok(Empty(3)));
        assert_eq!(found(&file, 11), Ok(Empty(4)));
        assert_eq!(row(&file), wanted);
    }
}

#[test]
fn an_all_empty_picture_gives_0_everywhere() {
    for setting in settings() {
        for cells in [1, 2, 12, 65] {
            let file = line(setting, &vec![0; cells]).unwrap();
            assert_eq!(row(&file), vec![Empty(0); cells]);
            assert_eq!(found(&file, cells), Err(Refusal::Beyond));
        }
    }
}

#[test]
fn the_last_cell_alone_empty_gives_n() {
    for setting in settings() {
        for cells in [1, 2, 12, 65] {
            let mut words = vec![7; cells];
            words[cells - 1] = 0;
            let file = line(setting, &words).unwrap();
            assert_eq!(parsed(&file).stored(), cells - 1);
            assert_eq!(found(&file, cells - 1), Ok(Empty(cells as u32 - 1)));
            assert_eq!(found(&file, cells), Err(Refusal::Beyond));
        }
    }
}

#[test]
fn empty_cells_before_the_first_give_0_and_after_the_last_n() {
    let mut wanted = vec![Empty(0); 5];
    wanted.extend([Stored(Rank(0)), Empty(1), Stored(Rank(1)), Stored(Rank(2))]);
    wanted.extend([Empty(3); 4]);
    for setting in settings() {
        let file = line(setting, &stored_at(13, &[5, 7, 8])).unwrap();
        assert_eq!(row(&file), wanted);
    }
}

#[test]
fn every_position_of_small_pictures() {
    for setting in settings() {
        for words in (1..=6).flat_map(pictures) {
            let extents = [1, words.len() as u32, 1, 1];
            // Words 0 stored where the empty word is 7, and all stored where it is 300.
            for empty in [0, 7, 300] {
                let file = make(setting, 2, &extents, empty, &words, ROOM).unwrap();
                let wanted: Vec<Ranked> = (0..words.len())
                    .map(|at| counted(empty, &words, at))
                    .collect();
                assert_eq!(row(&file), wanted);
            }
        }
    }
}

#[test]
fn far_apart_stored_cells() {
    let stored = [2, 257, 258, 514, 1000, 66_536, 69_998];
    let words = stored_at(70_000, &stored);
    for (kind, width, step) in [
        (1, 0, 0),
        (2, 0, 0),
        (3, 1, 1),
        (3, 2, 5),
        (4, 1, 0),
        (4, 2, 0),
        (5, 0, 2),
        (6, 1, 2),
        (6, 2, 1),
    ] {
        let file = line(Setting::new(kind, width, step), &words).unwrap();
        for at in stored.iter().flat_map(|&at| [at - 1, at, at + 1]) {
            assert_eq!(found(&file, at), Ok(counted(0, &words, at)));
        }
        assert_eq!(found(&file, 0), Ok(Empty(0)));
        assert_eq!(found(&file, 999), Ok(Empty(4)));
        assert_eq!(found(&file, 66_535), Ok(Empty(5)));
        assert_eq!(found(&file, 69_999), Ok(Empty(7)));
    }
}

#[test]
fn two_files_of_one_picture_agree() {
    for words in [SAMPLE.to_vec(), vec![0; 12], stored_at(12, &[0, 4, 5, 9])] {
        let files = settings().map(|setting| line(setting, &words).unwrap());
        for one in &files {
            for two in &files {
                assert!(shorter(one, two).is_ok());
                for at in 0..14 {
                    assert_eq!(found(one, at), found(two, at));
                }
            }
            for setting in settings() {
                let changed = change(one, setting, ROOM).unwrap();
                assert_eq!(row(&changed), row(one));
            }
            // They agree in the number counted, not in any other.
            for at in 0..12 {
                assert_eq!(found(one, at), Ok(counted(0, &words, at)));
            }
        }
    }
}

/// Kind 1's rule over the runs of a file. Up to the end of a run there are L_j + 1 cells, V_j of
/// them empty; the empty cells of a run come before its stored ones.
fn by_runs(file: &[u8], position: u32) -> Ranked {
    let (mut cells, mut empties) = (0, 0);
    for at in (52..field(file, 44) as usize).step_by(8) {
        let (last, empties_there) = (field(file, at), field(file, at + 4));
        if position <= last {
            let first_stored = cells + empties_there - empties;
            return if first_stored <= position {
                Stored(Rank(position - empties_there))
            } else {
                Empty(cells - empties)
            };
        }
        (cells, empties) = (last + 1, empties_there);
    }
    Empty(cells - empties)
}

#[test]
fn the_rule_of_kind_1_gives_the_number() {
    let mut pictures = pictures(8);
    pictures.push(SAMPLE.to_vec());
    for words in pictures {
        let file = line(Setting::new(1, 0, 0), &words).unwrap();
        for at in 0..words.len() {
            assert_eq!(found(&file, at), Ok(by_runs(&file, at as u32)));
        }
    }
}

#[test]
fn a_write_keeps_the_number_at_its_cell_and_moves_later_ones() {
    for setting in sample_settings() {
        let file = sample(setting);
        let filled = write(&file, Position(6), 41, ROOM).unwrap();
        assert_eq!(found(&filled, 6), Ok(Stored(Rank(3))));
        assert_eq!(found(&filled, 4), Ok(Empty(2)));
        assert_eq!(found(&filled, 7), Ok(Empty(4)));
        assert_eq!(found(&filled, 11), Ok(Empty(5)));
        let emptied = write(&file, Position(3), 0, ROOM).unwrap();
        assert_eq!(found(&emptied, 3), Ok(Empty(1)));
        assert_eq!(found(&emptied, 1), Ok(Empty(0)));
        assert_eq!(found(&emptied, 6), Ok(Empty(2)));
        assert_eq!(found(&emptied, 11), Ok(Empty(3)));
    }
}

#[test]
fn stored_cells_between_two_positions() {
    for setting in sample_settings() {
        let row = row(&sample(setting));
        for low in 0..12 {
            for high in low..12 {
                let between = SAMPLE[low..high].iter().filter(|&&word| word != 0);
                let wanted = between.count() as u32;
                assert_eq!(before(row[high]) - before(row[low]), wanted);
            }
        }
    }
}
