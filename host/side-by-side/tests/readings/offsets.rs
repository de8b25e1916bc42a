//! Kinds 3 and 4.

use radar_archive::{calls, Position, Rank};
use side_by_side::sides::Sides;

use crate::common::*;
use crate::WORDS;

#[test]
fn bases_stand_every_l_ranks() {
    let words = stored_at(40, &[1, 2, 10, 30, 39]);
    for (step, bases) in [
        (1, &[1, 2, 10, 30, 39][..]),
        (2, &[1, 10, 39]),
        (3, &[1, 30]),
        (5, &[1]),
        (255, &[1]),
    ] {
        let file = line([3, 1, step], &words).unwrap();
        assert_eq!(
            (field(&file, 28), field(&file, 32)),
            (bases.len() as u32, 5)
        );
        assert_eq!(file[52..52 + 4 * bases.len()], fours(bases));
        reads_as(&file, &words, 0);
    }
    let file = line([3, 1, 4], &[0; 40]).unwrap();
    assert_eq!((field(&file, 28), field(&file, 32)), (0, 0));
}

#[test]
fn a_write_may_turn_a_file_unfit_far_from_the_cell() {
    // Ranks in twos: 0 1 | 256 511; one more cell before them shifts the pairs to 0 5 | 10 256 | ..
    let words = stored_at(600, &[5, 10, 300, 555]);
    let file = line([3, 1, 2], &words).unwrap();
    let mut sides = Sides::new(1);
    assert_eq!(sides.write(&file, 0, 7), None);
    assert_eq!(number(calls::write(&file, Position(0), 7, &mut [])), 9);
    assert_eq!(sides.write(&file, 5, 0), None);
    assert_eq!(number(calls::write(&file, Position(5), 0, &mut [])), 9);
    assert_eq!(number(calls::write(&file, Position(556), 7, &mut [])), 10);
    let one = line([3, 1, 1], &words).unwrap();
    assert!(sides.write(&one, 0, 7).is_some() && sides.write(&one, 5, 0).is_some());
}

#[test]
fn offsets_that_no_picture_has_are_6() {
    let numbers = [3, 1, 2];
    let of =
        |bases: &[u32], offsets: &[u8]| raw(numbers, 12, singles(bases), bytes(offsets), &WORDS);
    assert_eq!(checked(&of(&[2, 5], &[0, 1, 0, 5])), 0);
    for (bases, offsets) in [
        ([2, u32::MAX], [0, 1, 0, 5]),
        ([2, u32::MAX - 4], [0, 1, 0, 8]),
        ([2, 5], [0, 0, 0, 5]),
        ([2, 2], [0, 1, 0, 5]),
        ([2, 3], [0, 1, 0, 5]),
        ([1, 5], [1, 2, 0, 5]),
        ([2, 4], [0, 1, 1, 6]),
        ([2, 5], [0, 1, 0, 7]),
        ([5, 2], [0, 5, 0, 1]),
    ] {
        assert_eq!(checked(&of(&bases, &offsets)), 6, "{bases:?} {offsets:?}");
    }
}

#[test]
fn a_difference_of_255_fits_and_256_is_a_jump() {
    for (width, last) in [(1, 255), (2, 65_535)] {
        for start in [0, 2] {
            let fits = stored_at(65_600, &[start, start + last]);
            let file = line([4, width, 0], &fits).unwrap();
            assert_eq!((field(&file, 28), field(&file, 32)), (1, 2));
            assert_eq!(field(&file, 52), start as u32);
            let jumps = stored_at(65_600, &[start, start + last + 1]);
            let file = line([4, width, 0], &jumps).unwrap();
            assert_eq!((field(&file, 28), field(&file, 32)), (2, 2));
            assert_eq!(
                (field(&file, 52), field(&file, 56)),
                (start as u32, (start + last + 1) as u32)
            );
            assert_eq!(
                calls::position(&file, Rank(1)),
                Ok(Position((start + last + 1) as u32))
            );
        }
    }
}

#[test]
fn jumps_that_no_picture_has_are_6() {
    let of = |jumps: &[u32], differences: &[u8], words: &[u32]| {
        raw([4, 1, 0], 600, singles(jumps), bytes(differences), words)
    };
    assert_eq!(checked(&of(&[2], &[0, 1, 2, 5], &WORDS)), 0);
    assert_eq!(checked(&of(&[2, 300], &[0, 1, 2, 0], &WORDS)), 0);
    for (jumps, differences) in [
        (&[2, 3][..], [0, 0, 2, 5]), // a jump where the difference fits
        (&[2, 260], [0, 1, 2, 0]),   // 5 + 255 fits too
        (&[2], [0, 1, 0, 5]),        // a difference 0 without a jump
        (&[], [0, 1, 2, 5]),         // no jump for rank 0
        (&[2, 300], [0, 1, 2, 5]),   // a jump left over
        (&[2], [2, 1, 2, 5]),        // a first difference that isn't 0
        (&[], [2, 1, 2, 5]),
        (&[2, 2], [0, 1, 2, 0]),     // not rising
        (&[2, 600], [0, 1, 2, 0]),   // outside
        (&[u32::MAX], [0, 1, 2, 5]), // the sum passes 32 bits
    ] {
        assert_eq!(
            checked(&of(jumps, &differences, &WORDS)),
            6,
            "{jumps:?} {differences:?}"
        );
    }
    assert_eq!(checked(&of(&[2, 261], &[0, 1, 2, 0], &WORDS)), 0);
}

#[test]
fn a_write_can_add_and_remove_jumps() {
    let mut sides = Sides::new(1);
    let jumps = |file: &[u8]| field(file, 28);
    let file = line([4, 1, 0], &stored_at(900, &[100, 400, 600])).unwrap();
    assert_eq!(jumps(&file), 2);
    let nearer = sides.write(&file, 250, 7).unwrap();
    assert_eq!(jumps(&nearer), 1);
    let emptied = sides.write(&nearer, 250, 0).unwrap();
    assert_eq!(emptied, file);
    let emptied = sides.write(&file, 400, 0).unwrap();
    assert_eq!(jumps(&emptied), 2);
    let before = sides.write(&file, 10, 7).unwrap();
    assert_eq!(jumps(&before), 2);
    let first = sides.write(&file, 100, 0).unwrap();
    assert_eq!((jumps(&first), field(&first, 52)), (1, 400));
    let after = sides.write(&file, 899, 7).unwrap();
    assert_eq!(jumps(&after), 3);
}
