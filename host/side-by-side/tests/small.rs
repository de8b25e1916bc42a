//! All small pictures and all small faults.

mod common;

use common::*;
use radar_archive::{calls, Archive};
use side_by_side::settings;
use side_by_side::sides::{parsed, Sides};

/// All words of so many cells over E, 1 and 256.
fn pictures(cells: usize, empty: u32) -> Vec<Vec<u32>> {
    let choices = [empty, 1, 256];
    (0..3usize.pow(cells as u32))
        .map(|index| {
            (0..cells)
                .map(|at| choices[index / 3usize.pow(at as u32) % 3])
                .collect()
        })
        .collect()
}

/// The dimensions of so many cells, one of each count at least.
fn shapes(cells: u32) -> Vec<(u32, [u32; 4])> {
    let mut shapes = vec![
        (1, [cells, 1, 1, 1]),
        (2, [1, cells, 1, 1]),
        (3, [1, cells, 1, 1]),
        (4, [1, 1, 1, cells]),
    ];
    for divisor in (2..cells).filter(|&divisor| cells % divisor == 0) {
        shapes.push((2, [divisor, cells / divisor, 1, 1]));
        shapes.push((4, [1, divisor, 1, cells / divisor]));
    }
    shapes
}

/// Settings of every kind whose pages, groups and widths small pictures can fill, and the last ones.
const SPREAD: [[u32; 3]; 22] = [
    [1, 0, 0],
    [2, 0, 0],
    [3, 1, 1],
    [3, 1, 2],
    [3, 1, 3],
    [3, 1, 255],
    [3, 2, 1],
    [3, 2, 2],
    [3, 2, 4],
    [3, 2, 255],
    [4, 1, 0],
    [4, 2, 0],
    [5, 0, 2],
    [5, 0, 3],
    [5, 0, 4],
    [5, 0, 64],
    [6, 1, 1],
    [6, 1, 2],
    [6, 1, 16],
    [6, 2, 1],
    [6, 2, 3],
    [6, 2, 255],
];

#[test]
fn all_pictures_of_up_to_6_cells_agree_in_every_call() {
    let mut sides = Sides::new(1);
    for empty in [0, 7, u32::MAX] {
        for cells in 1..=6 {
            for (dimensions, extents) in shapes(cells as u32) {
                for words in pictures(cells, empty) {
                    for setting in SPREAD {
                        let file = sides
                            .make(setting, dimensions, &extents, empty, &words)
                            .unwrap();
                        let checked = sides.check(&file);
                        let says = checked.as_ref().unwrap();
                        assert_eq!(says.picture.words, words);
                        for number in 0..=cells as u32 {
                            sides.opened(&file, says, number, number);
                        }
                        sides.expand(&file, &checked);
                    }
                }
            }
        }
    }
    println!("{} cases", sides.tally.cases());
}

#[test]
fn all_lookups_boxes_writes_and_changes_of_pictures_of_up_to_4_cells_agree() {
    let mut sides = Sides::new(2);
    for cells in 1..=4 {
        for (dimensions, extents) in shapes(cells as u32) {
            for words in pictures(cells, 7) {
                for setting in SPREAD {
                    let file = sides
                        .make(setting, dimensions, &extents, 7, &words)
                        .unwrap();
                    every_call(&mut sides, &file, dimensions, extents);
                }
            }
        }
    }
    println!("{} cases", sides.tally.cases());
}

/// The coordinates of a position; the first is too large if the position lies outside.
fn coordinates(extents: [u32; 4], position: u32) -> [u32; 4] {
    let mut rest = position;
    let mut at = [0; 4];
    for index in (1..4).rev() {
        at[index] = rest % extents[index];
        rest /= extents[index];
    }
    at[0] = rest;
    at
}

/// Every call on a small file, with every argument that lies inside and the next ones that don't.
fn every_call(sides: &mut Sides, file: &[u8], dimensions: u32, extents: [u32; 4]) {
    let checked = parsed(file);
    let (says, archive) = (checked.as_ref().unwrap(), Archive::open(file).unwrap());
    let cells: u32 = extents.iter().product();
    for position in 0..=cells {
        sides.cell(file, &checked, position);
        sides.rank(file, &checked, position);
        sides.position(file, &checked, position);
        sides.position_coordinates(dimensions, &extents, position);
        for word in [1, 7, 300] {
            sides.write(file, position, word);
        }
        for to in 0..=cells + 1 {
            sides.ranks(file, &checked, position, to);
            sides.count(&archive, says, position, to);
        }
    }
    for setting in SPREAD {
        sides.change(file, setting);
    }
    let corners: Vec<[u32; 4]> = (0..=cells)
        .map(|position| coordinates(extents, position))
        .collect();
    for low in &corners {
        sides.coordinates_position(dimensions, &extents, low);
        for high in &corners {
            sides.box_words(file, &checked, low, high);
        }
    }
}

#[test]
fn all_settings_make_all_pictures_of_5_cells() {
    let mut sides = Sides::new(3);
    for setting in settings::all() {
        for words in pictures(5, 0) {
            let file = sides.make(setting, 1, &[5, 1, 1, 1], 0, &words).unwrap();
            sides.check(&file).unwrap();
        }
    }
}

/// Every file that differs in one byte from this one, which has one dimension.
fn all_one_byte_faults(sides: &mut Sides, file: &[u8]) {
    let mut copy = file.to_vec();
    for at in 0..file.len() {
        for more in 1..=255 {
            copy[at] = file[at].wrapping_add(more);
            if at == 6 && more > 1 {
                // More empty cells at the end, up to 16,777,215 in all: accepted, and slow for a reader of whole pictures.
                assert_eq!(calls::check(&copy), Ok(()));
            } else {
                let _ = sides.check(&copy);
            }
        }
        copy[at] = file[at];
    }
}

#[test]
fn every_file_of_up_to_60_bytes_with_one_byte_changed_agrees() {
    let mut sides = Sides::new(4);
    let mut files = 0;
    for setting in SPREAD {
        for cells in 1..=6 {
            for words in pictures(cells, 7) {
                let file = sides
                    .make(setting, 1, &[cells as u32, 1, 1, 1], 7, &words)
                    .unwrap();
                if file.len() <= 60 {
                    all_one_byte_faults(&mut sides, &file);
                    files += 1;
                }
            }
        }
    }
    println!("{files} files, {} cases", sides.tally.cases());
    assert!(files > 100);
}

#[test]
fn every_sample_file_with_one_byte_changed_agrees() {
    let mut sides = Sides::new(5);
    for setting in SPREAD {
        all_one_byte_faults(&mut sides, &sample(setting));
    }
    let words: Vec<u32> = (0..22).map(|at| 7 * (at % 2)).collect();
    all_one_byte_faults(&mut sides, &line([5, 0, 2], &words).unwrap());
    let words = stored_at(900, &[0, 255, 511, 512, 800]);
    all_one_byte_faults(&mut sides, &line([4, 1, 0], &words).unwrap());
    for step in [1, 2, 3] {
        all_one_byte_faults(&mut sides, &line([6, 1, step], &words).unwrap());
    }
}

#[test]
fn the_sample_files_are_the_papers() {
    let lengths = [92, 84, 80, 76, 108, 80];
    for (setting, length) in SAMPLE_SETTINGS.into_iter().zip(lengths) {
        let file = sample(setting);
        assert_eq!(file.len(), length);
        reads_as(&file, &SAMPLE, 0);
    }
    assert_eq!(sample([1, 0, 0])[52..76], fours(&[3, 2, 5, 3, 10, 7]));
    assert_eq!(sample([2, 0, 0])[52..68], fours(&[2, 3, 5, 10]));
    assert_eq!(
        sample([3, 1, 2])[52..64],
        [fours(&[2, 5]), vec![0, 1, 0, 5]].concat()
    );
    assert_eq!(
        sample([4, 1, 0])[52..60],
        [fours(&[2]), vec![0, 1, 2, 5]].concat()
    );
    assert_eq!(
        sample([5, 0, 2])[52..92],
        fours(&[6, 3, 11, 7, 4, 2, 6, 3, 5, 4])
    );
    assert_eq!(
        sample([6, 1, 2])[52..64],
        [fours(&[2]), vec![0, 1, 2, 5], fours(&[0])].concat()
    );
    assert_eq!(line([1, 0, 0], &[7; 12]).unwrap()[52..60], fours(&[11, 0]));
}
