//! Kinds 1 and 5.

use radar_archive::{calls, Position, Rank, Ranked};

use crate::common::*;
use crate::{RUNS, WORDS};

#[test]
fn only_a_first_run_may_begin_without_empty_cells() {
    let words = [7, 9, 5];
    let file = raw(RUNS, 12, pairs(&[[0, 0], [3, 1]]), none(), &words);
    assert_eq!(checked(&file), 0);
    reads_as(&file, &[7, 0, 9, 5, 0, 0, 0, 0, 0, 0, 0, 0], 0);
    for runs in [[[0, 0], [2, 0]], [[2, 1], [3, 1]]] {
        let stored = runs[1][0] + 1 - runs[1][1];
        let file = raw(RUNS, 12, pairs(&runs), none(), &words[..stored as usize]);
        assert_eq!(checked(&file), 6, "{runs:?}");
    }
    let paged = |level_0: &[[u32; 2]]| raw([5, 0, 4], 12, none(), pairs(level_0), &words);
    assert_eq!(checked(&paged(&[[1, 0], [4, 1]])), 0);
    assert_eq!(checked(&paged(&[[1, 0], [3, 0]])), 6);
}

#[test]
fn runs_that_no_picture_has_are_6() {
    let listed = |runs: &[[u32; 2]]| checked(&raw(RUNS, 12, pairs(runs), none(), &WORDS));
    assert_eq!(listed(&[[3, 2], [5, 3], [10, 7]]), 0);
    for runs in [
        &[[3, 2], [5, 5], [10, 7]][..],      // a run without stored cells
        &[[3, 2], [5, 3], [10, 7], [11, 8]], // a pair for the trailing empty cells
        &[[3, 2], [5, 3], [12, 9]],          // the last cell lies outside
        &[[3, 2], [5, 3], [u32::MAX, 7]],    // and far outside
        &[[3, 2], [5, 3], [10, 8]],          // fewer than N cells
        &[[3, 2], [5, 3], [10, 6]],          // more than N cells
        &[[5, 3], [3, 2], [10, 7]],          // not rising
        &[[3, 4], [5, 3], [10, 7]],          // more empty cells than cells
        &[],                                 // none
    ] {
        assert_eq!(listed(runs), 6, "{runs:?}");
    }
    let paged = |level_0: &[[u32; 2]]| {
        let file = raw([5, 0, 4], 12, none(), pairs(level_0), &WORDS);
        checked(&file)
    };
    assert_eq!(paged(&[[4, 2], [6, 3], [11, 7]]), 0);
    for level_0 in [
        &[[4, 2], [6, 4], [11, 8]][..],
        &[[4, 2], [6, 3], [11, 7], [12, 8]],
        &[[4, 2], [6, 3], [13, 9]],
        &[[4, 2], [6, 3], [11, 8]],
        &[[4, 2], [6, 3], [11, 6]],
        &[[4, 2], [2, 1], [11, 7]],
        &[[4, 5], [6, 3], [11, 7]],
        &[],
    ] {
        assert_eq!(paged(level_0), 6, "{level_0:?}");
    }
}

#[test]
fn without_stored_cells_a_file_is_its_header() {
    for numbers in side_by_side::settings::all() {
        let file = line(numbers, &[0; 12]).unwrap();
        assert_eq!(file.len(), 52);
        assert_eq!(
            [24, 28, 32, 36, 40, 44, 48].map(|at| field(&file, at)),
            [0, 0, 0, 52, 52, 52, 52]
        );
        reads_as(&file, &[0; 12], 0);
    }
}

#[test]
fn levels_stand_above_more_than_b_runs() {
    let runs =
        |count: usize| -> Vec<u32> { (0..2 * count).map(|at| 7 * (at as u32 % 2)).collect() };
    for (step, count, upper) in [
        (2, 2, 0),
        (2, 3, 2),
        (2, 4, 2),
        (2, 5, 3 + 2),
        (2, 9, 5 + 3 + 2),
        (3, 3, 0),
        (3, 4, 2),
        (3, 9, 3),
        (3, 10, 4 + 2),
        (64, 64, 0),
        (64, 65, 2),
    ] {
        let words = runs(count);
        let file = line([5, 0, step], &words).unwrap();
        assert_eq!(
            (field(&file, 28), field(&file, 32)),
            (upper, count as u32),
            "b {step}, v {count}"
        );
        reads_as(&file, &words, 0);
    }
}

#[test]
fn sums_restart_in_each_page_at_every_level() {
    // Five runs, each one empty cell and one stored, b = 2: levels 5, 3, 2.
    let words: Vec<u32> = (0..10).map(|at| 7 * (at % 2)).collect();
    let top = [[8, 4], [10, 5]];
    let middle = [[4, 2], [8, 4], [2, 1]];
    let level_0 = [[2, 1], [4, 2], [2, 1], [4, 2], [2, 1]];
    let file = raw(
        [5, 0, 2],
        10,
        pairs(&[&top[..], &middle[..]].concat()),
        pairs(&level_0),
        &[7; 5],
    );
    assert_eq!(line([5, 0, 2], &words), Some(file));
    let running = [[2, 1], [4, 2], [6, 3], [8, 4], [10, 5]];
    let wrong = raw(
        [5, 0, 2],
        10,
        pairs(&[&top[..], &middle[..]].concat()),
        pairs(&running),
        &[7; 5],
    );
    assert_eq!(checked(&wrong), 6);
    let first_entries = [[2, 1], [4, 2], [2, 1]];
    let wrong = raw(
        [5, 0, 2],
        10,
        pairs(&[&top[..], &first_entries[..]].concat()),
        pairs(&level_0),
        &[7; 5],
    );
    assert_eq!(checked(&wrong), 6);
}

#[test]
fn a_descent_stops_at_an_entry_greater_than_the_position() {
    let file = sample([5, 0, 2]);
    // Entries of the levels are 4, 6 and 11: the positions at and beside each.
    for (at, ranked) in [
        (3, Ranked::Stored(Rank(1))),
        (4, Ranked::Empty(2)),
        (5, Ranked::Stored(Rank(2))),
        (6, Ranked::Empty(3)),
        (7, Ranked::Empty(3)),
        (10, Ranked::Stored(Rank(3))),
        (11, Ranked::Empty(4)),
    ] {
        assert_eq!(calls::rank(&file, Position(at)), Ok(ranked));
        assert_eq!(calls::opened_rank(&file, Position(at)), Ok(ranked));
    }
    for step in 2..=4 {
        for bits in 0..1u32 << 9 {
            let words: Vec<u32> = (0..9).map(|at| bits >> at & 1).collect();
            reads_as(&line([5, 0, step], &words).unwrap(), &words, 0);
        }
    }
}

#[test]
fn each_byte_of_the_upper_levels_is_compared() {
    let words: Vec<u32> = (0..18).map(|at| 7 * (at % 2)).collect();
    let file = line([5, 0, 2], &words).unwrap();
    let second_at = field(&file, 40) as usize;
    assert_eq!(second_at, 52 + 8 * 10);
    for at in 52..second_at {
        for more in [1, 16, 255] {
            assert_eq!(
                checked(&with_byte(&file, at, file[at].wrapping_add(more))),
                6,
                "byte {at}"
            );
        }
    }
}
