//! "Easily got wrong": kinds 1 and 5.

use super::*;
use crate::*;

const RUNS: Setting = Setting {
    kind: 1,
    width: 0,
    step: 0,
};
const PAGES: Setting = Setting {
    kind: 5,
    width: 0,
    step: 2,
};

/// The number that check gives for runs of kind 1 over 12 cells with so many stored words.
fn kind_1(runs: &[(u32, u32)], stored: usize) -> u32 {
    checked(&raw(RUNS, 12, pairs(runs), none(), &vec![7; stored]))
}

/// The number that check gives for one page of kind 5 over 12 cells with so many stored words.
fn kind_5(page: &[(u32, u32)], stored: usize) -> u32 {
    let setting = Setting::new(5, 0, 64);
    checked(&raw(setting, 12, none(), pairs(page), &vec![7; stored]))
}

/// The words of `count` runs, each an empty cell and a stored one.
fn alternating(count: usize) -> Vec<u32> {
    (0..2 * count).map(|position| position as u32 % 2).collect()
}

type Entries = Vec<(u32, u32)>;

/// The entries of kind 5: upper levels top first, and level 0.
fn entries(file: &[u8]) -> (Entries, Entries) {
    let read = |from: u32, to: u32| {
        (from..to)
            .step_by(8)
            .map(|at| (field(file, at as usize), field(file, at as usize + 4)))
            .collect()
    };
    let (first, second, words) = (field(file, 36), field(file, 40), field(file, 44));
    (read(first, second), read(second, words))
}

#[test]
fn a_first_run_may_have_no_empty_cells_but_no_later_one() {
    let file = line(RUNS, &[7, 7, 0, 7]).unwrap();
    let wanted = raw(RUNS, 4, pairs(&[(1, 0), (3, 1)]), none(), &[7, 7, 7]);
    assert_eq!(file, wanted);
    assert_eq!(rank(&file, Position(0)), Ok(Ranked::Stored(Rank(0))));
    assert_eq!(kind_1(&[(3, 2), (5, 2)], 4), 6);
    assert_eq!(kind_1(&[(1, 0), (3, 0)], 4), 6);
    assert_eq!(kind_1(&[(1, 0), (4, 1)], 4), 0);
    assert_eq!(kind_5(&[(2, 0), (4, 0)], 4), 6);
    assert_eq!(kind_5(&[(2, 0), (5, 1)], 4), 0);
}

#[test]
fn runs_that_no_picture_has_are_6() {
    // A run without stored cells, first or last.
    assert_eq!(kind_1(&[(1, 2), (5, 4)], 2), 6);
    assert_eq!(kind_1(&[(5, 4), (7, 6)], 2), 6);
    // A pair for the trailing empty cells.
    assert_eq!(kind_1(&[(5, 4), (11, 10)], 2), 6);
    // L at or past cells, and numbers near 2^32.
    assert_eq!(kind_1(&[(11, 10)], 2), 0);
    assert_eq!(kind_1(&[(12, 11)], 2), 6);
    assert_eq!(kind_1(&[(u32::MAX, u32::MAX - 1)], 2), 6);
    assert_eq!(kind_1(&[(3, 2), (2, 3)], 2), 6);
    assert_eq!(kind_1(&[(3, 3), (5, 2)], 2), 6);
    // Fewer and more than N stored cells.
    assert_eq!(kind_1(&[(5, 3)], 4), 6);
    assert_eq!(kind_1(&[(5, 3)], 2), 6);
    assert_eq!(kind_1(&[(5, 3)], 3), 0);
}

#[test]
fn pages_that_no_picture_has_are_6() {
    assert_eq!(kind_5(&[(6, 4)], 2), 0);
    assert_eq!(kind_5(&[(2, 2), (6, 4)], 2), 6);
    assert_eq!(kind_5(&[(6, 4), (12, 10)], 2), 6);
    assert_eq!(kind_5(&[(13, 11)], 2), 6);
    assert_eq!(kind_5(&[(0, u32::MAX)], 2), 6);
    assert_eq!(kind_5(&[(6, 4), (5, 4)], 2), 6);
    assert_eq!(kind_5(&[(6, 4), (8, 3)], 2), 6);
    assert_eq!(kind_5(&[(6, 3)], 4), 6);
    assert_eq!(kind_5(&[(6, 3)], 2), 6);
}

#[test]
fn without_stored_cells_there_are_no_runs() {
    for setting in [RUNS, PAGES] {
        let file = line(setting, &[0; 5]).unwrap();
        assert_eq!(file.len(), 52);
        for at in 0..5 {
            assert_eq!(rank(&file, Position(at)), Ok(Ranked::Empty(0)));
            assert_eq!(cell(&file, Position(at)), Ok(0));
        }
        assert_eq!(rank(&file, Position(5)), Err(Refusal::Beyond));
        assert_eq!(position(&file, Rank(0)), Err(Refusal::Beyond));
    }
}

#[test]
fn upper_levels_begin_above_one_page() {
    let counts = |step, count| {
        let file = line(Setting::new(5, 0, step), &alternating(count)).unwrap();
        assert_eq!(checked(&file), 0);
        (field(&file, 28), field(&file, 32))
    };
    assert_eq!(counts(2, 1), (0, 1));
    assert_eq!(counts(2, 2), (0, 2));
    assert_eq!(counts(2, 3), (2, 3));
    assert_eq!(counts(2, 4), (2, 4));
    assert_eq!(counts(2, 5), (3 + 2, 5));
    assert_eq!(counts(3, 3), (0, 3));
    assert_eq!(counts(3, 4), (2, 4));
    assert_eq!(counts(64, 64), (0, 64));
    assert_eq!(counts(64, 65), (2, 65));
}

#[test]
fn sums_restart_in_each_page_at_every_level() {
    let file = line(PAGES, &alternating(5)).unwrap();
    let (upper, level_0) = entries(&file);
    assert_eq!(level_0, [(2, 1), (4, 2), (2, 1), (4, 2), (2, 1)]);
    // The top of two entries, then the level of three in pages of two and one.
    assert_eq!(upper, [(8, 4), (10, 5), (4, 2), (8, 4), (2, 1)]);
}

/// What the rank lookup finds at a position by a descent over the entries, as the paper walks it.
/// The entries to the left say how many stored cells come before.
fn descend(file: &[u8], step: usize, position: u32) -> Ranked {
    let (upper, level_0) = entries(file);
    let mut sizes = vec![level_0.len()];
    while sizes[sizes.len() - 1] > step {
        sizes.push(sizes[sizes.len() - 1].div_ceil(step));
    }
    let all: Entries = upper.into_iter().chain(level_0).collect();
    let (mut start, mut page, mut rest, mut stored) = (0, 0, position, 0);
    for (depth, &size) in sizes.iter().rev().enumerate() {
        let from = page * step;
        let level = &all[start + from..start + size.min(from + step)];
        let Some(at) = level.iter().position(|entry| entry.0 > rest) else {
            // The cell comes after the last run, so the top page counts all stored cells.
            assert_eq!(depth, 0);
            let last = level.last().map_or((0, 0), |&last| last);
            return Ranked::Empty(last.0 - last.1);
        };
        let left = if at == 0 { (0, 0) } else { level[at - 1] };
        rest -= left.0;
        stored += left.0 - left.1;
        if depth + 1 == sizes.len() {
            let empties = level[at].1 - left.1;
            return match rest.checked_sub(empties) {
                Some(past) => Ranked::Stored(Rank(stored + past)),
                None => Ranked::Empty(stored),
            };
        }
        page = from + at;
        start += size;
    }
    unreachable!("the last level answers")
}

#[test]
fn a_descent_stops_at_an_entry_greater_than_the_position() {
    let file = sample(PAGES);
    // Position 4 equals the first entry's cells, 6 the first page's: each begins the next run.
    assert_eq!(rank(&file, Position(4)), Ok(Ranked::Empty(2)));
    assert_eq!(rank(&file, Position(5)), Ok(Ranked::Stored(Rank(2))));
    assert_eq!(rank(&file, Position(6)), Ok(Ranked::Empty(3)));
    for count in [1, 2, 3, 5, 9, 20] {
        let mut words = alternating(count);
        words.insert(count, 1);
        words.push(0);
        for step in [2, 3, 4] {
            let file = line(Setting::new(5, 0, step), &words).unwrap();
            for at in 0..words.len() as u32 {
                let found = descend(&file, step as usize, at);
                assert_eq!(rank(&file, Position(at)), Ok(found));
                assert_eq!(found, counted(0, &words, at as usize));
            }
        }
    }
}

#[test]
fn every_byte_of_the_upper_levels_is_compared() {
    let file = line(PAGES, &alternating(9)).unwrap();
    for at in 52..field(&file, 44) as usize {
        for flip in [1, 128, 255] {
            assert_eq!(checked(&with_byte(&file, at, file[at] ^ flip)), 6);
        }
    }
}
