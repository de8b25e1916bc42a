//! Kind 6.

use radar_archive::{calls, Position, Rank};
use side_by_side::sides::Sides;

use crate::common::*;
use crate::WORDS;

/// The pointers of a file of kind 6 with differences of one byte.
fn pointers(file: &[u8]) -> Vec<u32> {
    let from = (field(file, 40) + field(file, 32)) as usize;
    let to = field(file, 44) as usize;
    (from..to).step_by(4).map(|at| field(file, at)).collect()
}

#[test]
fn pointers_stand_every_n_jumps_and_in_no_count() {
    // Jumps at ranks 0, 2, 3, 5 and 6.
    let stored = [1, 3, 300, 600, 601, 900, 1_200];
    let words = stored_at(1_300, &stored);
    for (step, ranks) in [
        (1, &[0, 2, 3, 5, 6][..]),
        (2, &[0, 3, 6]),
        (3, &[0, 5]),
        (4, &[0, 6]),
        (5, &[0]),
        (255, &[0]),
    ] {
        let file = line([6, 1, step], &words).unwrap();
        assert_eq!((field(&file, 28), field(&file, 32)), (5, 7));
        assert_eq!(field(&file, 40), 52 + 4 * 5);
        assert_eq!(field(&file, 44), 52 + 4 * 5 + 7 + 4 * ranks.len() as u32);
        assert_eq!(pointers(&file), ranks);
        reads_as(&file, &words, 0);
    }
}

#[test]
fn a_false_pointer_is_6() {
    // Jumps at ranks 0, 1, 3, 4 and 6.
    let of = |step: u32, pointers: &[u32]| {
        let jumps = singles(&[2, 300, 600, 900, 1_200]);
        let second = pointed(&[0, 0, 9, 0, 0, 9, 0], pointers);
        checked(&raw([6, 1, step], 1_300, jumps, second, &[7; 7]))
    };
    assert_eq!(of(1, &[0, 1, 3, 4, 6]), 0);
    assert_eq!(of(2, &[0, 3, 6]), 0);
    assert_eq!(of(3, &[0, 4]), 0);
    for (step, false_pointers) in [
        (1, &[2, 300, 600, 900, 1_200][..]), // positions
        (1, &[0, 1, 2, 3, 4]),               // the numbers of the jumps
        (2, &[1, 4, 6]),                     // the jumps after
        (2, &[0, 2, 6]),                     // a rank without a jump
        (2, &[0, 4, 6]),                     // another jump
        (2, &[0, 6, 3]),                     // not rising
        (2, &[0, 3, 7]),                     // no rank
        (2, &[0, 3, u32::MAX]),
        (2, &[0, 3, 6 + (1 << 24)]),
        (3, &[0, 3]), // every 2 jumps, of which there are as many
    ] {
        assert_eq!(of(step, false_pointers), 6, "{step} {false_pointers:?}");
    }
}

#[test]
fn each_byte_of_the_pointers_is_compared() {
    let words = stored_at(2_000, &[0, 1, 300, 600, 601, 900, 1_200, 1_999]);
    for step in [1, 2, 3, 16, 255] {
        let file = line([6, 1, step], &words).unwrap();
        let words_at = field(&file, 44) as usize;
        for at in words_at - 4 * pointers(&file).len()..words_at {
            for more in 1..=255 {
                let bad = with_byte(&file, at, file[at].wrapping_add(more));
                assert_eq!(checked(&bad), 6, "step {step}, byte {at}");
            }
        }
    }
}

#[test]
fn a_words_offset_that_the_pointers_do_not_give_is_5() {
    let file = line([6, 1, 2], &stored_at(1_300, &[2, 300, 600, 900])).unwrap();
    let words_at = field(&file, 44);
    for value in [words_at - 8, words_at - 4, words_at + 4, 0, u32::MAX] {
        assert_eq!(checked(&with_field(&file, 44, value)), 5);
    }
    let of = |pointers: &[u32]| {
        let jumps = singles(&[2, 300, 600, 900]);
        let second = pointed(&[0; 4], pointers);
        checked(&raw([6, 1, 2], 1_300, jumps, second, &[7; 4]))
    };
    assert_eq!(of(&[0, 2]), 0);
    for pointers in [&[][..], &[0], &[0, 2, 3], &[0, 1, 2, 3]] {
        assert_eq!(of(pointers), 5, "{pointers:?}");
    }
}

#[test]
fn a_false_number_of_jumps_with_offsets_that_agree_is_6() {
    let of = |jumps: &[u32], differences: &[u8], pointers: &[u32]| {
        let second = pointed(differences, pointers);
        checked(&raw([6, 1, 1], 600, singles(jumps), second, &WORDS))
    };
    assert_eq!(of(&[2, 300], &[0, 1, 2, 0], &[0, 3]), 0);
    for (jumps, differences, pointers) in [
        (&[2][..], [0, 1, 2, 0], &[0][..]), // a difference 0 without a jump
        (&[2, 300, 580], [0, 1, 2, 0], &[0, 3, 3]), // a jump left over
        (&[2, 300, 580], [0, 1, 2, 0], &[0, 3, 4]),
        (&[], [0, 1, 2, 5], &[]),           // no jump for rank 0
        (&[2, 3], [0, 0, 2, 5], &[0, 1]),   // a jump where the difference fits
        (&[2], [2, 1, 2, 5], &[0]),         // a first difference that isn't 0
        (&[2, 600], [0, 1, 2, 0], &[0, 3]), // outside
    ] {
        assert_eq!(
            of(jumps, &differences, pointers),
            6,
            "{jumps:?} {differences:?}"
        );
    }
    // 5 judges the count as in kind 4: 5 jumps of 4 stored cells.
    assert_eq!(of(&[2, 3, 4, 5, 6], &[0; 4], &[0; 5]), 5);
}

#[test]
fn a_write_moves_the_pointers_of_all_later_jumps() {
    let mut sides = Sides::new(1);
    let file = line([6, 1, 1], &stored_at(1_300, &[100, 400, 401, 800, 1_100])).unwrap();
    assert_eq!(pointers(&file), [0, 1, 3, 4]);
    let before = sides.write(&file, 10, 7).unwrap();
    assert_eq!(pointers(&before), [0, 2, 4, 5]);
    let far_before = line([6, 1, 1], &stored_at(1_300, &[400, 401, 800])).unwrap();
    assert_eq!(
        pointers(&sides.write(&far_before, 0, 7).unwrap()),
        [0, 1, 3]
    );
    let emptied = sides.write(&file, 401, 0).unwrap();
    assert_eq!(pointers(&emptied), [0, 1, 2, 3]);
    assert_eq!(sides.write(&emptied, 401, 7).as_ref(), Some(&file));
    // The cell between takes away a jump, and the one after it puts another in.
    let nearer = sides.write(&file, 250, 7).unwrap();
    assert_eq!(pointers(&nearer), [0, 4, 5]);
    let after = sides.write(&nearer, 402, 7).unwrap();
    assert_eq!(pointers(&after), [0, 5, 6]);
    let first = sides.write(&file, 100, 0).unwrap();
    assert_eq!(pointers(&first), [0, 2, 3]);
    assert_eq!(calls::position(&first, Rank(2)), Ok(Position(800)));
}

#[test]
fn kind_4_keeps_its_layout_and_kind_6_adds_to_it() {
    let words = stored_at(1_300, &[2, 300, 301, 600, 900]);
    for step in [1, 2, 3, 16, 255] {
        let (jumps, file) = (
            line([4, 1, 0], &words).unwrap(),
            line([6, 1, step], &words).unwrap(),
        );
        let second_end = (field(&jumps, 44)) as usize;
        assert_eq!(file[4..44], jumps[4..44]);
        assert_eq!(file[52..second_end], jumps[52..second_end]);
        let words_at = field(&file, 44) as usize;
        assert_eq!(file[words_at..], jumps[second_end..]);
        let mut sides = Sides::new(1);
        assert_eq!(sides.change(&file, [4, 1, 0]), Some(jumps.clone()));
        assert_eq!(sides.change(&jumps, [6, 1, step]), Some(file));
    }
}
