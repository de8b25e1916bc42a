//! The sentences of number 6 in kinds 1 and 5.

use radar_archive::Setting;

use crate::files::{line, none, pairs, raw, with_field};
use crate::rows::{of_fields, six, Change, Row};

/// The rows of number 6 in kinds 1 and 5.
pub fn rows() -> Vec<Row> {
    let mut rows = of_fields(6, RUNS);
    rows.extend(of_fields(6, PAGED_RUNS));
    rows.extend(of_fields(6, LEVEL_0));
    rows.extend(of_fields(6, LEVEL_1));
    rows.extend(pairs_of_runs());
    rows.extend(entries_of_level_0());
    rows.extend(three_levels());
    rows
}

/// M1 has the runs (3,2) (5,3) (10,7) at 52, 60 and 68.
#[rustfmt::skip]
const RUNS: &[Change] = &[
    (1, 68, 12, "run 2 ends at position 12; the last cell is at position 11", 68),
    (1, 52, u32::MAX, "run 0 ends at position 4294967295; the last cell is at position 11", 52),
    (1, 60, 3, "run 1 ends at position 3, not after run 0, which ends at 3", 60),
    (1, 68, 4, "run 2 ends at position 4, not after run 1, which ends at 5", 68),
    (1, 64, 1, "run 1 counts 1 empty cell through its end, fewer than the 2 through run 0", 64),
    (1, 72, 0, "run 2 counts 0 empty cells through its end, fewer than the 3 through run 1", 72),
    (1, 64, 4, "run 1 has no stored cell: 2 cells, 2 empty", 64),
    (1, 56, 0, "run 1 has no stored cell: 2 cells, 3 empty", 64),
    (1, 56, u32::MAX, "run 0 has no stored cell: 4 cells, 4294967295 empty", 56),
    (1, 64, 2, "run 1 follows run 0 without an empty cell between them", 64),
    (1, 72, 6, "the runs through run 2 hold 5 stored cells; the header says 4", 68),
];

/// M5 has level 1 (6,3) (11,7) at 52 and 60, level 0 (4,2) (6,3) | (5,4) at 68, 76 and 84.
#[rustfmt::skip]
const PAGED_RUNS: &[Change] = &[
    (5, 84, 7, "run 2 ends at position 12; the last cell is at position 11", 84),
    (5, 76, u32::MAX, "run 1 ends at position 4294967294; the last cell is at position 11", 76),
    (5, 80, 4, "run 1 has no stored cell: 2 cells, 2 empty", 80),
    (5, 88, 5, "run 2 has no stored cell: 5 cells, 5 empty", 88),
    (5, 80, 2, "run 1 follows run 0 without an empty cell between them", 80),
    (5, 88, 0, "run 2 follows run 1 without an empty cell between them", 88),
    (5, 88, 3, "the runs through run 2 hold 5 stored cells; the header says 4", 84),
];

#[rustfmt::skip]
const LEVEL_0: &[Change] = &[
    (5, 68, 0, "entry 0 of level 0 begins a page and counts 0 cells; a run has at least 1", 68),
    (5, 84, 0, "entry 2 of level 0 begins a page and counts 0 cells; a run has at least 1", 84),
    (5, 76, 4, "entry 1 of level 0 counts 4 cells, not more than the 4 before it in its page", 76),
    (5, 76, 1, "entry 1 of level 0 counts 1 cell, not more than the 4 before it in its page", 76),
    (5, 80, 1, "entry 1 of level 0 counts 1 empty cell, fewer than the 2 before it in its page", 80),
];

#[rustfmt::skip]
const LEVEL_1: &[Change] = &[
    (5, 52, 5, "entry 0 of level 1 counts 5 cells; the sum from its page's start is 6", 52),
    (5, 60, 5, "entry 1 of level 1 counts 5 cells; the sum from its page's start is 11", 60),
    (5, 56, 1, "entry 0 of level 1 counts 1 empty cell; the sum from its page's start is 3", 56),
    (5, 64, 0, "entry 1 of level 1 counts 0 empty cells; the sum from its page's start is 7", 64),
];

/// Kind 1: a pair for the trailing empty cell, and runs that hold too few cells.
fn pairs_of_runs() -> Vec<Row> {
    let of =
        |runs: &[[u32; 2]], words: &[u32]| raw(Setting::runs(), 12, pairs(runs), none(), words);
    let trailing = of(&[[3, 2], [5, 3], [10, 7], [11, 8]], &[7, 9, 5, 300]);
    let three = of(&[[3, 2], [5, 3]], &[7, 9, 5, 300]);
    let one = of(&[[2, 2]], &[7, 9]);
    let none = of(&[], &[7]);
    let three_held =
        "the runs hold 3 stored cells, the header says 4; the word of rank 3 has no cell";
    let one_held = "the runs hold 1 stored cell, the header says 2; the word of rank 1 has no cell";
    let none_held =
        "the runs hold 0 stored cells, the header says 1; the word of rank 0 has no cell";
    vec![
        six(trailing, "run 3 has no stored cell: 1 cell, 1 empty", 80),
        six(three, three_held, 80),
        six(one, one_held, 64),
        six(none, none_held, 52),
    ]
}

/// Kind 5: runs that hold too few cells.
fn entries_of_level_0() -> Vec<Row> {
    let of = |entries: &[[u32; 2]], words: &[u32]| {
        raw(Setting::paged_runs(64), 12, none(), pairs(entries), words)
    };
    let two_held =
        "the runs hold 2 stored cells, the header says 3; the word of rank 2 has no cell";
    let none_held =
        "the runs hold 0 stored cells, the header says 1; the word of rank 0 has no cell";
    vec![
        six(of(&[[4, 2]], &[7, 9, 5]), two_held, 68),
        six(of(&[], &[7]), none_held, 52),
    ]
}

/// Five runs at step 2 have levels of 2, 3 and 5 entries, at 52, 68 and 92.
fn three_levels() -> Vec<Row> {
    let with = |at, value| {
        let words = [0, 1, 0, 1, 0, 1, 0, 1, 0, 1];
        with_field(line(Setting::paged_runs(2), &words), at, value)
    };
    let level_1 = "entry 2 of level 1 counts 10 cells; the sum from its page's start is 2";
    let level_2 = "entry 1 of level 2 counts 2 cells; the sum from its page's start is 10";
    let empties =
        "entry 1 of level 2 counts 4294967295 empty cells; the sum from its page's start is 5";
    vec![
        six(with(84, 10), level_1, 84),
        six(with(60, 2), level_2, 60),
        six(with(64, u32::MAX), empties, 64),
    ]
}
