//! Tests by the papers' own numbers, with files put together by hand.

mod before;
mod calls;
mod header;
mod lister;
mod offsets;
mod pointed_calls;
mod pointers;
mod readings;
mod runs;
mod sample;
mod table;
mod whole;

use crate::{make, number, Parsed, Rank, Ranked, Refusal, Setting};

/// The sample picture; its empty word is 0.
const SAMPLE: [u32; 12] = [0, 0, 7, 9, 0, 5, 0, 0, 0, 0, 300, 0];

/// A destination that is always long enough.
const ROOM: usize = usize::MAX;

/// The settings of M1 to M5, and one of kind 6.
fn sample_settings() -> [Setting; 6] {
    [
        Setting::new(1, 0, 0),
        Setting::new(2, 0, 0),
        Setting::new(3, 1, 2),
        Setting::new(4, 1, 0),
        Setting::new(5, 0, 2),
        Setting::new(6, 1, 2),
    ]
}

/// The file of one dimension with the empty word 0.
fn line(setting: Setting, words: &[u32]) -> Result<Vec<u8>, Refusal> {
    let extents = [words.len() as u32, 1, 1, 1];
    make(setting, 1, &extents, 0, words, ROOM)
}

/// The file of the sample in a setting.
fn sample(setting: Setting) -> Vec<u8> {
    line(setting, &SAMPLE).unwrap()
}

/// Words that are 0, but 7 at the positions given.
fn stored_at(cells: usize, positions: &[usize]) -> Vec<u32> {
    let mut words = vec![0; cells];
    for &position in positions {
        words[position] = 7;
    }
    words
}

/// Numbers of 4 bytes, lowest byte first.
fn fours(numbers: &[u32]) -> Vec<u8> {
    numbers.iter().flat_map(|n| n.to_le_bytes()).collect()
}

/// A file of one dimension with the empty word 0, put together from its parts (count and bytes).
fn raw(
    setting: Setting,
    cells: u32,
    first: (u32, Vec<u8>),
    second: (u32, Vec<u8>),
    words: &[u32],
) -> Vec<u8> {
    let second_at = 52 + first.1.len() as u32;
    let words_at = second_at + second.1.len() as u32;
    let stored = words.len() as u32;
    let mut file: Vec<u8> = [setting.kind, 1, setting.width, setting.step]
        .map(|n| n as u8)
        .to_vec();
    file.extend(fours(&[cells, 1, 1, 1, 0, stored, first.0, second.0]));
    file.extend(fours(&[52, second_at, words_at, words_at + 4 * stored]));
    file.extend(first.1);
    file.extend(second.1);
    file.extend(fours(words));
    file
}

/// A part without entries.
fn none() -> (u32, Vec<u8>) {
    (0, Vec::new())
}

/// A part of numbers of 4 bytes.
fn singles(numbers: &[u32]) -> (u32, Vec<u8>) {
    (numbers.len() as u32, fours(numbers))
}

/// A part of pairs.
fn pairs(pairs: &[(u32, u32)]) -> (u32, Vec<u8>) {
    let numbers: Vec<u32> = pairs.iter().flat_map(|p| [p.0, p.1]).collect();
    (pairs.len() as u32, fours(&numbers))
}

/// A part of single bytes.
fn bytes(bytes: &[u8]) -> (u32, Vec<u8>) {
    (bytes.len() as u32, bytes.to_vec())
}

/// Differences of one byte and the pointers behind them; the count is that of the differences.
fn pointed(differences: &[u8], pointers: &[u32]) -> (u32, Vec<u8>) {
    let mut part = bytes(differences);
    part.1.extend(fours(pointers));
    part
}

/// A copy of the file with another 4-byte number at an offset.
fn with_field(file: &[u8], at: usize, value: u32) -> Vec<u8> {
    let mut copy = file.to_vec();
    copy[at..at + 4].copy_from_slice(&value.to_le_bytes());
    copy
}

/// A copy of the file with another byte at an offset.
fn with_byte(file: &[u8], at: usize, value: u8) -> Vec<u8> {
    let mut copy = file.to_vec();
    copy[at] = value;
    copy
}

/// The 4-byte number at an offset.
fn field(file: &[u8], at: usize) -> u32 {
    crate::header::number_at(file, at)
}

/// The number that check gives.
fn checked(file: &[u8]) -> u32 {
    number(&crate::check(file))
}

/// What an accepted file says.
fn parsed(file: &[u8]) -> Parsed {
    crate::check(file).unwrap()
}

/// What the rank lookup finds at a position, by counting the words before it.
fn counted(empty: u32, words: &[u32], at: usize) -> Ranked {
    let stored = words[..at].iter().filter(|&&word| word != empty);
    let before = stored.count() as u32;
    if words[at] == empty {
        Ranked::Empty(before)
    } else {
        Ranked::Stored(Rank(before))
    }
}
