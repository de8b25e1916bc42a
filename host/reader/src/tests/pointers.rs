//! Kind 6 (S-7, A17): its layout, and the files that are refused.

use super::*;
use crate::*;

const EACH: Setting = Setting {
    kind: 6,
    width: 1,
    step: 1,
};
const EVERY_OTHER: Setting = Setting {
    kind: 6,
    width: 1,
    step: 2,
};

/// The sample in kind 6, width 1, byte by byte.
#[rustfmt::skip]
fn sample_bytes(step: u8) -> [u8; 80] {
    [
        // Kind, dimension count, width, step; the extents.
        6, 1, 1, step,
        12, 0, 0, 0, 1, 0, 0, 0, 1, 0, 0, 0, 1, 0, 0, 0,
        // E, N, the number of jumps, the number of differences.
        0, 0, 0, 0, 4, 0, 0, 0, 1, 0, 0, 0, 4, 0, 0, 0,
        // The offsets of jumps, differences and words; the length.
        52, 0, 0, 0, 56, 0, 0, 0, 64, 0, 0, 0, 80, 0, 0, 0,
        // The jump, the differences, the pointer.
        2, 0, 0, 0,
        0, 1, 2, 5,
        0, 0, 0, 0,
        // The words.
        7, 0, 0, 0, 9, 0, 0, 0, 5, 0, 0, 0, 44, 1, 0, 0,
    ]
}

/// The number that check gives over 600 cells, all stored words 7.
fn kind_6(setting: Setting, jumps: &[u32], differences: &[u8], pointers: &[u32]) -> u32 {
    let words = vec![7; differences.len()];
    let second = pointed(differences, pointers);
    checked(&raw(setting, 600, singles(jumps), second, &words))
}

/// A file of 1000 cells with jumps at ranks 0, 1, 3 and 5.
fn four_jumps(setting: Setting) -> Vec<u8> {
    let words = stored_at(1000, &[2, 300, 301, 600, 603, 900]);
    line(setting, &words).unwrap()
}

#[test]
fn the_sample_byte_by_byte() {
    for step in [1, 2] {
        let file = sample(Setting::new(6, 1, step));
        assert_eq!(file, sample_bytes(step as u8));
        assert_eq!(file.len(), 80);
        assert_eq!(checked(&file), 0);
    }
}

#[test]
fn stored_cells_2_and_258_of_300() {
    let words = stored_at(300, &[2, 258]);
    let jumps = singles(&[2, 258]);
    let each = line(EACH, &words).unwrap();
    let second = pointed(&[0, 0], &[0, 1]);
    assert_eq!(each, raw(EACH, 300, jumps.clone(), second, &[7, 7]));
    assert_eq!(each.len(), 52 + 8 + 2 + 8 + 8);
    assert_eq!(each[60..70], [0, 0, 0, 0, 0, 0, 1, 0, 0, 0]);
    let other = line(EVERY_OTHER, &words).unwrap();
    let second = pointed(&[0, 0], &[0]);
    assert_eq!(other, raw(EVERY_OTHER, 300, jumps, second, &[7, 7]));
    assert_eq!(other.len(), 52 + 8 + 2 + 4 + 8);
    assert_eq!((checked(&each), checked(&other)), (0, 0));
    // One cell nearer the difference fits.
    let fits = line(EACH, &stored_at(300, &[2, 257])).unwrap();
    let second = pointed(&[0, 255], &[0]);
    assert_eq!(fits, raw(EACH, 300, singles(&[2]), second, &[7, 7]));
}

#[test]
fn differences_of_two_bytes() {
    let wide = Setting::new(6, 2, 1);
    let file = line(wide, &stored_at(70_000, &[2, 65_537])).unwrap();
    let second = (2, vec![0, 0, 255, 255, 0, 0, 0, 0]);
    assert_eq!(file, raw(wide, 70_000, singles(&[2]), second, &[7, 7]));
    let file = line(wide, &stored_at(70_000, &[2, 65_538])).unwrap();
    let second = (2, vec![0, 0, 0, 0, 0, 0, 0, 0, 1, 0, 0, 0]);
    let jumps = singles(&[2, 65_538]);
    assert_eq!(file, raw(wide, 70_000, jumps, second, &[7, 7]));
    assert_eq!(checked(&file), 0);
}

#[test]
fn without_stored_cells_there_are_no_pointers() {
    for (width, step) in [(1, 1), (1, 2), (2, 1), (2, 255)] {
        let setting = Setting::new(6, width, step);
        let file = line(setting, &[0; 12]).unwrap();
        assert_eq!(file.len(), 52);
        assert_eq!(file, raw(setting, 12, none(), none(), &[]));
        assert_eq!(rank(&file, Position(11)), Ok(Ranked::Empty(0)));
        assert_eq!(position(&file, Rank(0)), Err(Refusal::Beyond));
    }
}

#[test]
fn pointers_stand_every_step_jumps() {
    let pointers = |step| {
        let file = four_jumps(Setting::new(6, 1, step));
        // Header, 4 jumps and 6 differences come before them.
        let places = (52 + 16 + 6..field(&file, 44)).step_by(4);
        places
            .map(|at| field(&file, at as usize))
            .collect::<Vec<u32>>()
    };
    assert_eq!(pointers(1), [0, 1, 3, 5]);
    assert_eq!(pointers(2), [0, 3]);
    assert_eq!(pointers(3), [0, 5]);
    assert_eq!(pointers(4), [0]);
    assert_eq!(pointers(255), [0]);
}

#[test]
fn step_0_and_256_are_3_and_255_passes() {
    let file = sample(Setting::new(4, 1, 0));
    for width in [1, 2] {
        for step in [0, 256] {
            let setting = Setting::new(6, width, step);
            assert_eq!(line(setting, &SAMPLE), Err(Refusal::Setting));
            assert_eq!(change(&file, setting, ROOM), Err(Refusal::Setting));
        }
        let setting = Setting::new(6, width, 255);
        let made = line(setting, &SAMPLE).unwrap();
        assert_eq!(checked(&made), 0);
        assert_eq!(change(&file, setting, ROOM), Ok(made.clone()));
        assert_eq!(checked(&with_byte(&made, 3, 0)), 3);
    }
    assert_eq!(checked(&sample_bytes(0)), 3);
    for width in [0, 3, 255] {
        let setting = Setting::new(6, width, 1);
        assert_eq!(line(setting, &SAMPLE), Err(Refusal::Setting));
        assert_eq!(checked(&with_byte(&sample_bytes(1), 2, width as u8)), 3);
    }
}

#[test]
fn kind_7_is_2() {
    let file = sample(EACH);
    for (width, step) in [(0, 0), (1, 1), (9, 999)] {
        let setting = Setting::new(7, width, step);
        assert_eq!(line(setting, &SAMPLE), Err(Refusal::Kind));
        assert_eq!(change(&file, setting, ROOM), Err(Refusal::Kind));
    }
    for kind in 7..=255 {
        assert_eq!(checked(&with_byte(&file, 0, kind)), 2);
    }
}

#[test]
fn each_false_byte_of_a_pointer_is_6() {
    for (width, step) in [(1, 1), (1, 2), (1, 255), (2, 3)] {
        let file = four_jumps(Setting::new(6, width, step));
        let from = field(&file, 40) + width * field(&file, 32);
        let to = field(&file, 44);
        assert!(from < to);
        for at in from as usize..to as usize {
            for value in (0..=255).filter(|&value| value != file[at]) {
                assert_eq!(checked(&with_byte(&file, at, value)), 6);
            }
        }
    }
}

#[test]
fn false_pointers_that_look_right_are_6() {
    let jumps = [2, 300, 590];
    let differences = [0, 0, 1, 0];
    assert_eq!(kind_6(EACH, &jumps, &differences, &[0, 1, 3]), 0);
    assert_eq!(kind_6(EVERY_OTHER, &jumps, &differences, &[0, 3]), 0);
    // The jump's own number, another rank, the position, two exchanged, one twice.
    assert_eq!(kind_6(EACH, &jumps, &differences, &[0, 1, 2]), 6);
    assert_eq!(kind_6(EVERY_OTHER, &jumps, &differences, &[0, 1]), 6);
    assert_eq!(kind_6(EVERY_OTHER, &jumps, &differences, &[0, 2]), 6);
    assert_eq!(kind_6(EACH, &jumps, &differences, &[2, 300, 590]), 6);
    assert_eq!(kind_6(EACH, &jumps, &differences, &[0, 3, 1]), 6);
    assert_eq!(kind_6(EACH, &jumps, &differences, &[0, 1, 1]), 6);
    assert_eq!(kind_6(EACH, &jumps, &differences, &[1, 1, 3]), 6);
    assert_eq!(kind_6(EACH, &jumps, &differences, &[0, 1, u32::MAX]), 6);
}

#[test]
fn jumps_that_no_picture_has_are_6_with_their_pointers() {
    assert_eq!(kind_6(EACH, &[2], &[0, 1, 2, 5], &[0]), 0);
    // A jump where the difference fits.
    assert_eq!(kind_6(EACH, &[2, 3], &[0, 0, 2, 5], &[0, 1]), 6);
    assert_eq!(kind_6(EACH, &[2, 257], &[0, 0], &[0, 1]), 6);
    // A difference 0 without a jump left, a jump left over, a first difference that isn't 0.
    assert_eq!(kind_6(EACH, &[2], &[0, 1, 0, 5], &[0]), 6);
    assert_eq!(kind_6(EACH, &[2, 590], &[0, 1, 2, 5], &[0, 4]), 6);
    assert_eq!(kind_6(EACH, &[2], &[2, 1, 2, 5], &[0]), 6);
    assert_eq!(kind_6(EACH, &[], &[2, 1, 2, 5], &[]), 6);
    // A jump back, to itself, past cells, and a difference past cells or 2^32.
    assert_eq!(kind_6(EACH, &[580, 2], &[0, 0], &[0, 1]), 6);
    assert_eq!(kind_6(EACH, &[2, 2], &[0, 0], &[0, 1]), 6);
    assert_eq!(kind_6(EACH, &[2, 600], &[0, 0], &[0, 1]), 6);
    assert_eq!(kind_6(EACH, &[590], &[0, 10], &[0]), 6);
    assert_eq!(kind_6(EACH, &[u32::MAX], &[0, 3], &[0]), 6);
}

#[test]
fn a_words_offset_without_the_pointers_is_5() {
    for step in [1, 2, 255] {
        let file = four_jumps(Setting::new(6, 1, step));
        let without = field(&file, 40) + 6;
        let other = with_field(&file, 44, without);
        assert_eq!(checked(&other), 5);
        // With the length that would follow, lent whole or cut to it.
        let other = with_field(&other, 48, without + 24);
        assert_eq!(checked(&other), 5);
        assert_eq!(checked(&other[..without as usize + 24]), 5);
    }
    // A kind 4 file called kind 6, and the other way about.
    let file = four_jumps(Setting::new(4, 1, 0));
    assert_eq!(checked(&with_byte(&with_byte(&file, 0, 6), 3, 1)), 5);
    let file = four_jumps(EACH);
    assert_eq!(checked(&with_byte(&with_byte(&file, 0, 4), 3, 0)), 5);
}

#[test]
fn a_pointer_too_few_or_too_many_is_5() {
    let (jumps, differences) = ([2, 300, 590], [0, 0, 1, 0]);
    assert_eq!(kind_6(EACH, &jumps, &differences, &[0, 1]), 5);
    assert_eq!(kind_6(EACH, &jumps, &differences, &[0, 1, 3, 3]), 5);
    assert_eq!(kind_6(EVERY_OTHER, &jumps, &differences, &[0]), 5);
    assert_eq!(kind_6(EVERY_OTHER, &jumps, &differences, &[0, 3, 4]), 5);
    assert_eq!(kind_6(EACH, &[], &[], &[0]), 5);
    assert_eq!(kind_6(EACH, &[], &[], &[]), 0);
}

#[test]
fn pointers_are_in_no_entry_count() {
    let file = four_jumps(EACH);
    assert_eq!((field(&file, 28), field(&file, 32)), (4, 6));
    assert_eq!(checked(&with_field(&file, 32, 6 + 4)), 5);
    assert_eq!(checked(&with_field(&file, 28, 4 + 4)), 5);
}

#[test]
fn another_step_in_the_header_counts_other_pointers() {
    let file = four_jumps(EVERY_OTHER);
    for step in [1, 4, 255] {
        assert_eq!(checked(&with_byte(&file, 3, step)), 5);
    }
    // Steps 2 and 3 both give two pointers, but to other jumps.
    assert_eq!(checked(&with_byte(&file, 3, 3)), 6);
    // One jump has one pointer in every step.
    let other = with_byte(&sample(EACH), 3, 255);
    assert_eq!(other, sample(Setting::new(6, 1, 255)));
    assert_eq!(checked(&other), 0);
}
