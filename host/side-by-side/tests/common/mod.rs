//! Files put together by hand, and both sides' answers on them.
#![allow(dead_code)]

use radar_archive::{calls, Position, Rank, Ranked, Refusal};
use side_by_side::sides::Sides;

/// The sample picture; its empty word is 0.
pub const SAMPLE: [u32; 12] = [0, 0, 7, 9, 0, 5, 0, 0, 0, 0, 300, 0];

/// The settings of M1 to M5, and one of kind 6.
pub const SAMPLE_SETTINGS: [[u32; 3]; 6] = [
    [1, 0, 0],
    [2, 0, 0],
    [3, 1, 2],
    [4, 1, 0],
    [5, 0, 2],
    [6, 1, 2],
];

/// A part: its entry count and its bytes.
pub type Part = (u32, Vec<u8>);

/// Numbers of 4 bytes, lowest byte first.
pub fn fours(numbers: &[u32]) -> Vec<u8> {
    numbers
        .iter()
        .flat_map(|number| number.to_le_bytes())
        .collect()
}

/// A part without entries.
pub fn none() -> Part {
    (0, Vec::new())
}

/// A part of numbers of 4 bytes.
pub fn singles(numbers: &[u32]) -> Part {
    (numbers.len() as u32, fours(numbers))
}

/// A part of pairs.
pub fn pairs(pairs: &[[u32; 2]]) -> Part {
    (pairs.len() as u32, fours(&pairs.concat()))
}

/// A part of single bytes.
pub fn bytes(bytes: &[u8]) -> Part {
    (bytes.len() as u32, bytes.to_vec())
}

/// The second part of kind 6 with differences of one byte, and pointers, which it does not count.
pub fn pointed(differences: &[u8], pointers: &[u32]) -> Part {
    let bytes = [differences.to_vec(), fours(pointers)].concat();
    (differences.len() as u32, bytes)
}

/// A file of one dimension with the empty word 0, put together from its parts.
pub fn raw(setting: [u32; 3], cells: u32, first: Part, second: Part, words: &[u32]) -> Vec<u8> {
    let second_at = 52 + first.1.len() as u32;
    let words_at = second_at + second.1.len() as u32;
    let stored = words.len() as u32;
    let mut file: Vec<u8> = [setting[0], 1, setting[1], setting[2]]
        .map(|number| number as u8)
        .to_vec();
    file.extend(fours(&[cells, 1, 1, 1, 0, stored, first.0, second.0]));
    file.extend(fours(&[52, second_at, words_at, words_at + 4 * stored]));
    file.extend([first.1, second.1, fours(words)].concat());
    file
}

/// A copy of the file with another 4-byte number at an offset.
pub fn with_field(file: &[u8], at: usize, value: u32) -> Vec<u8> {
    let mut copy = file.to_vec();
    side_by_side::forge::set_field(&mut copy, at, value);
    copy
}

/// A copy of the file with another byte at an offset.
pub fn with_byte(file: &[u8], at: usize, value: u8) -> Vec<u8> {
    let mut copy = file.to_vec();
    copy[at] = value;
    copy
}

/// The 4-byte number at an offset.
pub fn field(file: &[u8], at: usize) -> u32 {
    side_by_side::forge::field(file, at)
}

/// The number that check gives, on which both sides agree.
pub fn checked(file: &[u8]) -> u32 {
    let mut sides = Sides::new(1);
    sides.check(file).err().unwrap_or(0)
}

/// The file of a line of words with the empty word 0, on which both sides agree.
pub fn line(numbers: [u32; 3], words: &[u32]) -> Option<Vec<u8>> {
    let mut sides = Sides::new(1);
    sides.make(numbers, 1, &[words.len() as u32, 1, 1, 1], 0, words)
}

/// The file of the sample in a setting.
pub fn sample(numbers: [u32; 3]) -> Vec<u8> {
    line(numbers, &SAMPLE).unwrap()
}

/// Words that are 0, but 7 at the positions given.
pub fn stored_at(cells: usize, positions: &[usize]) -> Vec<u32> {
    let mut words = vec![0; cells];
    for &position in positions {
        words[position] = 7;
    }
    words
}

/// The number of an answer.
pub fn number<T>(answer: Result<T, Refusal>) -> u32 {
    answer.err().map_or(0, Refusal::number)
}

/// Every lookup of a file, through all calls, against its words.
pub fn reads_as(file: &[u8], words: &[u32], empty: u32) {
    let stored = reads_inside(file, words, empty);
    refuses_outside(file, words.len() as u32, stored);
    let mut expanded = vec![0; words.len()];
    assert_eq!(calls::expand(file, &mut expanded), Ok(()));
    assert_eq!(expanded, words);
}

/// The lookups of every cell; gives the number of stored ones.
fn reads_inside(file: &[u8], words: &[u32], empty: u32) -> u32 {
    let mut rank = 0;
    for (at, &word) in (0..).zip(words) {
        let wanted = if word == empty {
            Ranked::Empty(rank)
        } else {
            Ranked::Stored(Rank(rank))
        };
        for (cell, found) in [
            (
                calls::cell(file, Position(at)),
                calls::rank(file, Position(at)),
            ),
            (
                calls::opened_cell(file, Position(at)),
                calls::opened_rank(file, Position(at)),
            ),
        ] {
            assert_eq!(cell, Ok(word));
            assert_eq!(found, Ok(wanted));
        }
        if word != empty {
            assert_eq!(calls::position(file, Rank(rank)), Ok(Position(at)));
            assert_eq!(calls::opened_position(file, Rank(rank)), Ok(Position(at)));
            rank += 1;
        }
    }
    rank
}

/// The lookups past the last cell and past the last rank.
fn refuses_outside(file: &[u8], cells: u32, stored: u32) {
    for beyond in [cells, u32::MAX] {
        assert_eq!(calls::cell(file, Position(beyond)), Err(Refusal::Beyond));
        assert_eq!(calls::rank(file, Position(beyond)), Err(Refusal::Beyond));
        assert_eq!(
            calls::opened_cell(file, Position(beyond)),
            Err(Refusal::Beyond)
        );
        assert_eq!(
            calls::opened_rank(file, Position(beyond)),
            Err(Refusal::Beyond)
        );
    }
    for beyond in [stored, u32::MAX] {
        assert_eq!(calls::position(file, Rank(beyond)), Err(Refusal::Beyond));
        assert_eq!(
            calls::opened_position(file, Rank(beyond)),
            Err(Refusal::Beyond)
        );
    }
}
