//! A header put right, so that the calls look at the body.

use side_by_side::forge::{field, set_field};

/// The bytes before the first part.
pub const LENGTH: usize = 52;

/// The most cells of a picture that every call is tried on.
pub const MOST_CELLS: u32 = 150_000;

/// Makes kind, width and step allowed.
pub fn allow_setting(file: &mut [u8]) {
    if !(1..=6).contains(&file[0]) {
        file[0] = 1 + file[0] % 6;
    }
    let (width, step) = (file[2], file[3]);
    let (width, step) = match file[0] {
        3 | 6 => (within(width, 1, 2), within(step, 1, 255)),
        4 => (within(width, 1, 2), 0),
        5 => (0, within(step, 2, 64)),
        _ => (0, 0),
    };
    (file[2], file[3]) = (width, step);
}

/// The number itself if it is from `low` through `high`, otherwise another that is.
fn within(number: u8, low: u8, high: u8) -> u8 {
    if (low..=high).contains(&number) {
        number
    } else {
        low + number % (high - low + 1)
    }
}

/// Makes the dimension count and the extents allowed, of at most `most` cells, and gives the cells.
pub fn allow_extents(file: &mut [u8], most: u32) -> u32 {
    let count = within(file[1], 1, 4);
    file[1] = count;
    let mut cells = 1;
    for index in 0..4 {
        let at = 4 + 4 * index;
        let mut extent = field(file, at).max(1);
        if index >= usize::from(count) {
            extent = 1;
        } else if extent > most / cells {
            extent = 1 + extent % (most / cells).min(1024);
        }
        set_field(file, at, extent);
        cells *= extent;
    }
    cells
}

/// Makes counts, offsets and length agree with the bytes that follow the header: as many stored words as there are bytes for, and
/// as many runs or jumps as the header claims where that can be. The file is cut to its length.
pub fn agree(file: &mut Vec<u8>, cells: u32) {
    let setting = [file[0], file[2], file[3]].map(usize::from);
    let bytes = file.len() - LENGTH;
    let at = if setting[0] == 5 { 32 } else { 28 };
    let claimed = field(file, at) as usize;
    let most = (0..=bytes / 4).take_while(|&free| size(setting, free, free) <= bytes);
    let free = claimed % (most.last().unwrap_or(0) + 1);
    let stored = (free..=bytes / 4).take_while(|&stored| size(setting, stored, free) <= bytes);
    let stored = stored.last().unwrap_or(free).min(cells as usize);
    put_counts(file, setting, stored, free.min(stored));
}

/// Puts in the counts, the offsets and the length, and cuts the file.
fn put_counts(file: &mut Vec<u8>, setting: [usize; 3], stored: usize, free: usize) {
    let (first, second) = counts(setting, stored, free);
    let (first_length, second_length) = part_lengths(setting, first, second);
    let second_at = LENGTH + first_length;
    let words_at = second_at + second_length;
    let length = words_at + 4 * stored;
    let fields = [stored, first, second, LENGTH, second_at, words_at, length];
    for (index, value) in fields.into_iter().enumerate() {
        set_field(file, 24 + 4 * index, value as u32);
    }
    file.truncate(length);
}

/// The bytes after the header of a file of so many stored words and runs or jumps.
fn size(setting: [usize; 3], stored: usize, free: usize) -> usize {
    let (first, second) = counts(setting, stored, free);
    let (first_length, second_length) = part_lengths(setting, first, second);
    first_length + second_length + 4 * stored
}

/// The bytes of both parts; the pointers of kind 6, which no count has, are in the second.
fn part_lengths(setting: [usize; 3], first: usize, second: usize) -> (usize, usize) {
    let (first_size, second_size) = entry_sizes(setting);
    let pointers = match setting {
        [6, _, step] => first.div_ceil(step),
        _ => 0,
    };
    (first_size * first, second_size * second + 4 * pointers)
}

/// The entries of both parts; `free` is the number of runs or jumps.
fn counts([kind, _, step]: [usize; 3], stored: usize, free: usize) -> (usize, usize) {
    match kind {
        1 => (free, 0),
        2 => (stored, 0),
        3 => (stored.div_ceil(step), stored),
        4 | 6 => (free, stored),
        _ => (upper_entries(free, step), free),
    }
}

/// The bytes of an entry of each part.
fn entry_sizes([kind, width, _]: [usize; 3]) -> (usize, usize) {
    match kind {
        1 => (8, 0),
        2 => (4, 0),
        3 | 4 | 6 => (4, width),
        _ => (8, 8),
    }
}

/// The entries above a level 0 of `level` entries, in pages of `step`.
fn upper_entries(mut level: usize, step: usize) -> usize {
    let mut upper = 0;
    while level > step {
        level = level.div_ceil(step);
        upper += level;
    }
    upper
}
