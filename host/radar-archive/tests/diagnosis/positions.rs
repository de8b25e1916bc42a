//! The sentences of number 6 in kinds 2, 3, 4 and 6, and those on stored words in all kinds.

use radar_archive::Setting;

use crate::files::{bytes, pointed, raw, singles};
use crate::rows::{of_bytes, of_fields, six, Change, Row};

/// The rows of number 6 that are not about runs.
pub fn rows() -> Vec<Row> {
    let mut rows = of_fields(6, POSITIONS);
    rows.extend(of_fields(6, BASES));
    rows.extend(of_bytes(6, OFFSETS));
    rows.extend(wide_offsets());
    rows.extend(of_bytes(6, DIFFERENCES));
    rows.extend(jumps());
    rows.push(wide_jump());
    rows.extend(of_fields(6, POINTERS));
    rows.extend(pointers());
    rows.extend(of_fields(6, WORDS));
    rows
}

/// M2 has the positions 2 3 5 10 at 52, 56, 60 and 64.
#[rustfmt::skip]
const POSITIONS: &[Change] = &[
    (2, 64, 12, "rank 3 is at position 12; the last cell is at position 11", 64),
    (2, 52, u32::MAX, "rank 0 is at position 4294967295; the last cell is at position 11", 52),
    (2, 60, 3, "rank 2 is at position 3, not after rank 1 at position 3", 60),
    (2, 56, 1, "rank 1 is at position 1, not after rank 0 at position 2", 56),
];

/// M3 has the bases 2 5 at 52 and 56.
#[rustfmt::skip]
const BASES: &[Change] = &[
    (3, 52, 12, "base 0 puts rank 0 at position 12; the last cell is at position 11", 52),
    (3, 56, u32::MAX, "base 1 puts rank 2 at position 4294967295; the last cell is at position 11", 56),
    (3, 56, 3, "base 1 puts rank 2 at position 3, not after rank 1 at position 3", 56),
];

/// M3 has the offsets 0 1 0 5 at 60 to 63.
#[rustfmt::skip]
const OFFSETS: &[Change] = &[
    (3, 60, 1, "rank 0 is at a base, so its offset is 0, not 1", 60),
    (3, 62, 255, "rank 2 is at a base, so its offset is 0, not 255", 62),
    (3, 63, 7, "offset 7 from position 5 puts rank 3 at position 12; the last cell is at position 11", 63),
    (3, 61, 0, "offset 0 from position 2 puts rank 1 at position 2, not after rank 0 at position 2", 61),
];

/// M4 has the jump 2 at 52, the differences 0 1 2 5 at 56 to 59.
#[rustfmt::skip]
const DIFFERENCES: &[Change] = &[
    (4, 56, 1, "the difference of rank 0 is 1, not 0", 56),
    (4, 59, 7, "difference 7 from position 5 puts rank 3 at position 12; the last cell is at position 11", 59),
    (4, 58, 0, "the difference of rank 2 is 0, and there is no jump 1 for it", 58),
    (4, 52, 12, "jump 0 puts rank 0 at position 12; the last cell is at position 11", 52),
    (6, 56, 1, "the difference of rank 0 is 1, not 0", 56),
    (6, 59, 0, "the difference of rank 3 is 0, and there is no jump 1 for it", 59),
];

/// The same picture in kind 6 has also the pointer 0 at 60.
#[rustfmt::skip]
const POINTERS: &[Change] = &[
    (6, 60, 1, "pointer 0 points to rank 1; jump 0 is at rank 0", 60),
    (6, 60, u32::MAX, "pointer 0 points to rank 4294967295; jump 0 is at rank 0", 60),
];

/// The empty word among the stored ones.
#[rustfmt::skip]
const WORDS: &[Change] = &[
    (1, 76, 0, "the word of rank 0 is 0, the empty word", 76),
    (2, 80, 0, "the word of rank 3 is 0, the empty word", 80),
    (3, 20, 5, "the word of rank 2 is 5, the empty word", 72),
    (4, 20, 300, "the word of rank 3 is 300, the empty word", 72),
    (5, 96, 0, "the word of rank 1 is 0, the empty word", 96),
    (6, 68, 0, "the word of rank 1 is 0, the empty word", 68),
];

/// Kind 3 with offsets of 2 bytes.
fn wide_offsets() -> Vec<Row> {
    let of = |offsets: &[u16]| {
        let bytes = offsets.iter().flat_map(|offset| offset.to_le_bytes());
        let second = (offsets.len() as u32, bytes.collect());
        let words = vec![7; offsets.len()];
        let setting = Setting::base_offset(2, 255);
        raw(setting, 70_000, singles(&[4_000]), second, &words)
    };
    let falling = "offset 65520 from position 4000 puts rank 2 at position 69520, not after rank 1 at position 69535";
    vec![
        six(
            of(&[513]),
            "rank 0 is at a base, so its offset is 0, not 513",
            56,
        ),
        six(of(&[0, 65_535, 65_520]), falling, 60),
    ]
}

/// Kind 4 with other numbers of jumps.
fn jumps() -> Vec<Row> {
    let of = |jumps: &[u32], differences: &[u8]| {
        let words = vec![7; differences.len()];
        let (first, second) = (singles(jumps), bytes(differences));
        raw(Setting::jumps(1), 600, first, second, &words)
    };
    let no_jump = "the difference of rank 0 is 0, and there is no jump 0 for it";
    let repeated = "jump 1 puts rank 1 at position 2, not after rank 0 at position 2";
    let fits = "jump 1 goes from position 2 to 257, but a difference of 255 fits width 1";
    let one_left = "2 jumps for 1 difference of 0; jump 1 belongs to no rank";
    let left = "3 jumps for 2 differences of 0; jump 2 belongs to no rank";
    vec![
        six(of(&[], &[0]), no_jump, 52),
        six(of(&[2, 2], &[0, 0]), repeated, 56),
        six(of(&[2, 257], &[0, 0]), fits, 56),
        six(of(&[2, 258], &[0, 9]), one_left, 56),
        six(of(&[2, 258, 3], &[0, 0, 1]), left, 60),
    ]
}

/// Kind 4 with differences of 2 bytes.
fn wide_jump() -> Row {
    let differences = (2, vec![0; 4]);
    let setting = Setting::jumps(2);
    let file = raw(setting, 70_000, singles(&[1, 65_536]), differences, &[7, 9]);
    let fits = "jump 1 goes from position 1 to 65536, but a difference of 65535 fits width 2";
    six(file, fits, 56)
}

/// Kind 6 with jumps at ranks 0, 1, 3, 4 and 6, and other pointers.
fn pointers() -> Vec<Row> {
    let of = |step, pointers: &[u32]| {
        let jumps = singles(&[2, 300, 600, 900, 1_200]);
        let second = pointed(&[0, 0, 9, 0, 0, 9, 0], pointers);
        raw(
            Setting::pointed_jumps(1, step),
            1_300,
            jumps,
            second,
            &[7; 7],
        )
    };
    let positions = "pointer 1 points to rank 300; jump 1 is at rank 1";
    let numbers = "pointer 1 points to rank 2; jump 2 is at rank 3";
    let next = "pointer 2 points to rank 5; jump 4 is at rank 6";
    vec![
        six(
            of(1, &[2, 300, 600, 900, 1_200]),
            "pointer 0 points to rank 2; jump 0 is at rank 0",
            79,
        ),
        six(of(1, &[0, 300, 600, 900, 1_200]), positions, 83),
        six(of(2, &[0, 2, 4]), numbers, 83),
        six(of(2, &[0, 3, 5]), next, 87),
    ]
}
