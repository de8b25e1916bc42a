//! Calls.

use radar_archive::{calls, Position, Ranked, Refusal};
use side_by_side::sides::Sides;

use crate::common::*;
use crate::{POSITIONS, RUNS, WORDS};

#[test]
fn e_among_the_stored_words_is_6_and_a_stored_0_is_not() {
    for numbers in SAMPLE_SETTINGS {
        let file = sample(numbers);
        let words_at = field(&file, 44) as usize;
        for (rank, word) in WORDS.into_iter().enumerate() {
            assert_eq!(checked(&with_field(&file, words_at + 4 * rank, 0)), 6);
            assert_eq!(checked(&with_field(&file, 20, word)), 6);
        }
        let mut sides = Sides::new(1);
        let words = [9, 0, 9, 9, 0, 7, 0, 0, 9, 9, 9, 0];
        let file = sides.make(numbers, 1, &[12, 1, 1, 1], 9, &words).unwrap();
        reads_as(&file, &words, 9);
        // A written E is no stored word.
        let emptied = sides.write(&file, 5, 9).unwrap();
        assert_eq!(field(&emptied, 24), 5);
    }
}

/// The words of a line, and some of its empty cells: position, and the stored cells before it.
type Line<'a> = (&'a [u32], &'a [(u32, u32)]);

#[test]
fn an_empty_cell_gives_the_stored_cells_before_it() {
    let all_but_the_last = [&[7; 11][..], &[0]].concat();
    let lines: [Line; 4] = [
        // 0 before the first stored cell, N after the last.
        (&SAMPLE, &[(0, 0), (1, 0), (4, 2), (6, 3), (9, 3), (11, 4)]),
        (&[0; 12], &[(0, 0), (11, 0)]),
        (&all_but_the_last, &[(11, 11)]),
        (&[0, 7], &[(0, 0)]),
    ];
    for (words, cells) in lines {
        for numbers in SAMPLE_SETTINGS {
            let file = line(numbers, words).unwrap();
            for &(at, before) in cells {
                let wanted = Ok(Ranked::Empty(before));
                assert_eq!(calls::rank(&file, Position(at)), wanted, "{numbers:?} {at}");
                assert_eq!(
                    calls::opened_rank(&file, Position(at)),
                    wanted,
                    "{numbers:?} {at}"
                );
            }
            reads_as(&file, words, 0);
        }
    }
}

#[test]
fn make_says_7_for_too_few_and_too_many_words() {
    let extents = [300, 1, 1, 1];
    let unfit = stored_at(300, &[2, 258]);
    for numbers in [RUNS, POSITIONS, [3, 1, 2], [4, 1, 0], [5, 0, 2], [6, 1, 2]] {
        for words in [&unfit[..299], &[&unfit[..], &[0]].concat(), &[]] {
            let made = calls::make(numbers, 1, &extents, 0, words, &mut []);
            assert_eq!(made, Err(Refusal::Picture));
        }
    }
    let made = calls::make([3, 1, 2], 1, &extents, 0, &unfit, &mut []);
    assert_eq!(made, Err(Refusal::Unfit));
}

#[test]
fn the_second_files_number_comes_only_if_the_first_has_none() {
    let file = sample(RUNS);
    let bad = [
        file[..51].to_vec(),
        with_byte(&file, 0, 7),
        with_byte(&file, 3, 1),
        with_field(&file, 4, 0),
        with_field(&file, 48, 91),
        with_field(&file, 52, 4),
    ];
    let mut sides = Sides::new(1);
    for (one, first) in (1..).zip(&bad) {
        assert_eq!(number(calls::shorter(first, &file)), one);
        assert_eq!(number(calls::shorter(&file, first)), one);
        for second in &bad {
            assert_eq!(number(calls::shorter(first, second)), one);
            sides.shorter(first, second);
        }
    }
}

#[test]
fn shorter_hands_back_the_first_on_equal_length() {
    let same = |one: &[u8], two: &[u8]| std::ptr::eq(one, two);
    let (one, two) = (sample([5, 0, 3]), sample([5, 0, 4]));
    assert_eq!(one.len(), two.len());
    assert!(same(calls::shorter(&one, &two).unwrap(), &one));
    assert!(same(calls::shorter(&two, &one).unwrap(), &two));
    let copy = one.clone();
    assert!(same(calls::shorter(&copy, &one).unwrap(), &copy));
    let jumps = sample([4, 1, 0]);
    assert!(same(calls::shorter(&one, &jumps).unwrap(), &jumps));
    assert!(same(calls::shorter(&jumps, &one).unwrap(), &jumps));
}

#[test]
fn change_gives_the_files_number_before_the_settings() {
    let file = sample(RUNS);
    let bad = [
        (file[..51].to_vec(), 1),
        (with_byte(&file, 0, 9), 2),
        (with_field(&file, 4, 0), 4),
        (with_field(&file, 48, 0), 5),
        (with_field(&file, 52, 4), 6),
    ];
    let mut room = [0; 200];
    for wrong in [
        [0, 0, 0],
        [7, 0, 0],
        [257, 0, 0],
        [3, 0, 1],
        [3, 257, 1],
        [5, 0, 258],
        [6, 1, 0],
        [6, 1, 256],
    ] {
        let own = if (1..=6).contains(&wrong[0]) { 3 } else { 2 };
        assert_eq!(number(calls::change(&file, wrong, &mut room)), own);
        for (bad, wanted) in &bad {
            let given = calls::change(bad, wrong, &mut room);
            assert_eq!(number(given), *wanted);
        }
    }
    assert_eq!(room, [0; 200]);
}
