//! Files put together by hand.

use radar_archive::{Dimensions, Picture, Setting};
use side_by_side::forge::set_field;

/// A part: its entry count and its bytes.
pub type Part = (u32, Vec<u8>);

/// The file of a line of words with the empty word 0.
pub fn line(setting: Setting, words: &[u32]) -> Vec<u8> {
    let picture = Picture {
        dimensions: Dimensions::of(&[words.len() as u32]).unwrap(),
        empty: 0,
        words: words.to_vec(),
    };
    picture.make(setting).unwrap()
}

/// Words that are 0, but 7 at the positions given.
pub fn stored_at(cells: usize, positions: &[u32]) -> Vec<u32> {
    let mut words = vec![0; cells];
    for &position in positions {
        words[position as usize] = 7;
    }
    words
}

/// The files M1 to M5 of document 01, and the same picture in kind 6.
pub fn sample(kind: u32) -> Vec<u8> {
    let setting = match kind {
        1 => Setting::runs(),
        2 => Setting::positions(),
        3 => Setting::base_offset(1, 2),
        4 => Setting::jumps(1),
        5 => Setting::paged_runs(2),
        _ => Setting::pointed_jumps(1, 2),
    };
    line(setting, &[0, 0, 7, 9, 0, 5, 0, 0, 0, 0, 300, 0])
}

/// A copy of a file with another byte at an offset.
pub fn with_byte(mut file: Vec<u8>, at: usize, value: u8) -> Vec<u8> {
    file[at] = value;
    file
}

/// A copy of a file with another 4-byte number at an offset.
pub fn with_field(mut file: Vec<u8>, at: usize, value: u32) -> Vec<u8> {
    set_field(&mut file, at, value);
    file
}

/// Numbers of 4 bytes, lowest byte first.
pub fn fours(numbers: &[u32]) -> Vec<u8> {
    let bytes = numbers.iter().flat_map(|number| number.to_le_bytes());
    bytes.collect()
}

/// A part without entries.
pub fn none() -> Part {
    (0, Vec::new())
}

/// A part of numbers of 4 bytes.
pub fn singles(numbers: &[u32]) -> Part {
    (numbers.len() as u32, fours(numbers))
}

/// A part of pairs.
pub fn pairs(pairs: &[[u32; 2]]) -> Part {
    (pairs.len() as u32, fours(&pairs.concat()))
}

/// A part of single bytes.
pub fn bytes(bytes: &[u8]) -> Part {
    (bytes.len() as u32, bytes.to_vec())
}

/// The second part of kind 6 with differences of one byte, and pointers, which it does not count.
pub fn pointed(differences: &[u8], pointers: &[u32]) -> Part {
    let bytes = [differences.to_vec(), fours(pointers)].concat();
    (differences.len() as u32, bytes)
}

/// A file of one dimension with the empty word 0, put together from its parts.
pub fn raw(setting: Setting, cells: u32, first: Part, second: Part, words: &[u32]) -> Vec<u8> {
    let second_at = 52 + first.1.len() as u32;
    let words_at = second_at + second.1.len() as u32;
    let stored = words.len() as u32;
    let [kind, width, step] = setting.into();
    let mut file = [kind, 1, width, step].map(|number| number as u8).to_vec();
    file.extend(fours(&[cells, 1, 1, 1, 0, stored, first.0, second.0]));
    file.extend(fours(&[52, second_at, words_at, words_at + 4 * stored]));
    file.extend([first.1, second.1, fours(words)].concat());
    file
}
