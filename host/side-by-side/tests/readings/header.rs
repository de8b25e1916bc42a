//! Header and counts.

use radar_archive::{calls, Position};
use side_by_side::sides::Sides;

use crate::common::*;
use crate::{POSITIONS, RUNS};

#[test]
fn the_product_of_extents_does_not_wrap() {
    let file = sample(RUNS);
    for (count, extents) in [
        (4, [65_536; 4]),
        (2, [1 << 31, 2, 1, 1]),
        (4, [1 << 31, 2, 0, 1]),
        (4, [65_536, 65_536, 65_536, 0]),
        (1, [16_777_217, 1, 1, 1]),
        (3, [4_096, 4_096, 2, 1]),
        (2, [0, 5, 1, 1]),
    ] {
        let mut bad = with_byte(&file, 1, count as u8);
        for (index, extent) in extents.into_iter().enumerate() {
            bad = with_field(&bad, 4 + 4 * index, extent);
        }
        assert_eq!(checked(&bad), 4, "{extents:?}");
        let made = calls::make(RUNS, count, &extents, 0, &[], &mut [0; 60]);
        assert_eq!(number(made), 4);
        assert_eq!(
            number(calls::coordinates_position(count, &extents, &[0; 4])),
            4
        );
    }
    let largest = with_field(&file, 4, 16_777_216);
    assert_eq!(checked(&largest), 0);
    let square = with_field(&with_field(&with_byte(&file, 1, 2), 4, 4_096), 8, 4_096);
    assert_eq!(checked(&square), 0);
}

#[test]
fn counts_are_compared_before_sizes_are_computed() {
    for numbers in SAMPLE_SETTINGS {
        let file = sample(numbers);
        for at in [24, 28, 32] {
            for value in [
                u32::MAX,
                1 << 29,
                1 << 30,
                1 << 31,
                (1 << 29) + 4,
                (1 << 30) + 4,
                (1 << 31) + 4,
            ] {
                assert_eq!(
                    checked(&with_field(&file, at, value)),
                    5,
                    "{numbers:?} {at} {value}"
                );
            }
        }
    }
}

#[test]
fn width_and_step_are_tested_before_they_are_used() {
    for (numbers, wrong) in [
        ([3, 1, 2], [3, 1, 0]),
        ([3, 1, 2], [3, 0, 2]),
        ([3, 1, 2], [3, 3, 2]),
        ([4, 1, 0], [4, 0, 0]),
        ([4, 1, 0], [4, 3, 0]),
        ([4, 1, 0], [4, 1, 1]),
        ([5, 0, 2], [5, 0, 0]),
        ([5, 0, 2], [5, 0, 1]),
        ([5, 0, 2], [5, 0, 65]),
        ([5, 0, 2], [5, 1, 2]),
        ([6, 1, 2], [6, 1, 0]),
        ([6, 1, 2], [6, 0, 2]),
        ([6, 1, 2], [6, 3, 2]),
        ([1, 0, 0], [1, 1, 0]),
        ([2, 0, 0], [2, 0, 1]),
    ] {
        let mut bad = sample(numbers);
        (bad[2], bad[3]) = (wrong[1] as u8, wrong[2] as u8);
        assert_eq!(checked(&bad), 3, "{wrong:?}");
        let mut sides = Sides::new(1);
        for number in 0..14 {
            sides.opened_over_any(&bad, number, number);
        }
        assert_eq!(line(wrong, &SAMPLE), None);
    }
    assert!(line([5, 0, 64], &SAMPLE).is_some());
    assert!(line([3, 2, 255], &SAMPLE).is_some());
    assert!(line([6, 2, 255], &SAMPLE).is_some());
    assert_eq!(
        number(calls::change(&sample(RUNS), [3, 1, 256], &mut [0; 200])),
        3
    );
}

#[test]
fn bytes_lent_longer_than_the_length_are_5() {
    for numbers in SAMPLE_SETTINGS {
        let file = sample(numbers);
        for more in [1, 4, 52] {
            let mut longer = file.clone();
            longer.resize(file.len() + more, 0);
            assert_eq!(checked(&longer), 5);
            let mut destination = [0; 300];
            assert_eq!(
                number(calls::write(&longer, Position(0), 1, &mut destination)),
                5
            );
        }
        // A list's file has to be cut from its destination.
        let mut destination = vec![0; 300];
        let length = calls::write(&file, Position(0), 1, &mut destination).unwrap();
        assert_eq!(checked(&destination), 5);
        assert_eq!(checked(&destination[..length]), 0);
    }
}

#[test]
fn extents_past_the_count_are_tested_in_the_file() {
    let file = sample(POSITIONS);
    for at in [8, 12, 16] {
        for value in [0, 2, u32::MAX] {
            assert_eq!(checked(&with_field(&file, at, value)), 4);
        }
    }
    assert_eq!(checked(&with_byte(&file, 1, 4)), 0);
    assert_eq!(checked(&with_byte(&file, 1, 0)), 4);
    assert_eq!(checked(&with_byte(&file, 1, 5)), 4);
}

#[test]
fn the_numbers_of_a_file_rise() {
    let file = sample([3, 1, 2]);
    let bad_counts = with_field(&file, 24, u32::MAX);
    assert_eq!(checked(&bad_counts), 5);
    let bad_extents = with_field(&bad_counts, 4, 0);
    assert_eq!(checked(&bad_extents), 4);
    let bad_step = with_byte(&bad_extents, 3, 0);
    assert_eq!(checked(&bad_step), 3);
    let bad_kind = with_byte(&bad_step, 0, 0);
    assert_eq!(checked(&bad_kind), 2);
    assert_eq!(checked(&bad_kind[..51]), 1);
    let bad_body = with_field(&file, 52, 5);
    assert_eq!(checked(&bad_body), 6);
    assert_eq!(checked(&with_field(&bad_body, 48, 81)), 5);
}
