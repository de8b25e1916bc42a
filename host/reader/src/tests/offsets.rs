//! "Easily got wrong": kinds 3 and 4.

use super::*;
use crate::*;

const BASES: Setting = Setting {
    kind: 3,
    width: 1,
    step: 2,
};
const JUMPS: Setting = Setting {
    kind: 4,
    width: 1,
    step: 0,
};

/// The number that check gives for kind 3 over so many cells, all stored words 7.
fn kind_3(cells: u32, bases: &[u32], offsets: &[u8]) -> u32 {
    let words = vec![7; offsets.len()];
    checked(&raw(BASES, cells, singles(bases), bytes(offsets), &words))
}

/// The number that check gives for kind 4 over so many cells, all stored words 7.
fn kind_4(cells: u32, jumps: &[u32], differences: &[u8]) -> u32 {
    let words = vec![7; differences.len()];
    checked(&raw(
        JUMPS,
        cells,
        singles(jumps),
        bytes(differences),
        &words,
    ))
}

/// Jumps and differences of a kind 4 file of width 1.
fn jumps_and_differences(file: &[u8]) -> (Vec<u32>, Vec<u8>) {
    let (first, second, words) = (field(file, 36), field(file, 40), field(file, 44));
    let jumps = (first..second)
        .step_by(4)
        .map(|at| field(file, at as usize));
    (
        jumps.collect(),
        file[second as usize..words as usize].to_vec(),
    )
}

#[test]
fn bases_stand_every_step_ranks() {
    let counts = |step, words: &[u32]| {
        let file = line(Setting::new(3, 1, step), words).unwrap();
        assert_eq!(checked(&file), 0);
        (field(&file, 28), field(&file, 32))
    };
    assert_eq!(counts(2, &SAMPLE), (2, 4));
    assert_eq!(counts(3, &SAMPLE), (2, 4));
    assert_eq!(counts(4, &SAMPLE), (1, 4));
    assert_eq!(counts(255, &SAMPLE), (1, 4));
    assert_eq!(counts(1, &SAMPLE), (4, 4));
    assert_eq!(counts(2, &[0; 12]), (0, 0));
    let file = sample(Setting::new(3, 2, 3));
    let offsets = (4, vec![0, 0, 1, 0, 3, 0, 0, 0]);
    let wanted = raw(
        Setting::new(3, 2, 3),
        12,
        singles(&[2, 10]),
        offsets,
        &[7, 9, 5, 300],
    );
    assert_eq!(file, wanted);
}

#[test]
fn offsets_up_to_the_width_fit() {
    let fits = |width, step, cells, positions: &[usize]| {
        number(&line(
            Setting::new(3, width, step),
            &stored_at(cells, positions),
        ))
    };
    assert_eq!(fits(1, 2, 300, &[2, 257]), 0);
    assert_eq!(fits(1, 2, 300, &[2, 258]), 9);
    assert_eq!(fits(2, 2, 70_000, &[2, 65_537]), 0);
    assert_eq!(fits(2, 2, 70_000, &[2, 65_538]), 9);
    assert_eq!(fits(1, 1, 70_000, &[0, 300, 69_999]), 0);
}

#[test]
fn a_write_may_turn_a_file_unfit_far_from_its_cell() {
    // Groups (10 11) (400 401); one more stored cell before them pairs 11 with 400.
    let file = line(BASES, &stored_at(500, &[10, 11, 400, 401])).unwrap();
    assert_eq!(write(&file, Position(0), 7, ROOM), Err(Refusal::Unfit));
    // Groups (0 1) (10 11) (400 401); emptying 0 pairs 11 with 400 too.
    let file = line(BASES, &stored_at(500, &[0, 1, 10, 11, 400, 401])).unwrap();
    assert_eq!(write(&file, Position(0), 0, ROOM), Err(Refusal::Unfit));
    let single = change(&file, Setting::new(3, 1, 1), ROOM).unwrap();
    let words = stored_at(500, &[1, 10, 11, 400, 401]);
    let wanted = line(Setting::new(3, 1, 1), &words);
    assert_eq!(write(&single, Position(0), 0, ROOM), wanted);
}

#[test]
fn bases_and_offsets_that_no_picture_has_are_6() {
    assert_eq!(kind_3(12, &[2, 5], &[0, 1, 0, 5]), 0);
    // The base's own offset isn't 0.
    assert_eq!(kind_3(12, &[1, 5], &[1, 2, 0, 5]), 6);
    // A position repeats, falls, or passes cells or 2^32.
    assert_eq!(kind_3(12, &[2, 5], &[0, 0, 0, 5]), 6);
    assert_eq!(kind_3(12, &[2, 3], &[0, 1, 0, 5]), 6);
    assert_eq!(kind_3(12, &[5, 2], &[0, 1, 0, 1]), 6);
    assert_eq!(kind_3(12, &[2, 5], &[0, 1, 0, 7]), 6);
    assert_eq!(kind_3(12, &[2, u32::MAX], &[0, 1, 0, 5]), 6);
    assert_eq!(kind_3(12, &[u32::MAX, 5], &[0, 3, 0, 5]), 6);
}

#[test]
fn a_difference_of_the_widest_fits_and_one_more_is_a_jump() {
    let wide = Setting::new(4, 2, 0);
    let file = line(wide, &stored_at(70_000, &[2, 65_537])).unwrap();
    let differences = (2, vec![0, 0, 255, 255]);
    assert_eq!(file, raw(wide, 70_000, singles(&[2]), differences, &[7, 7]));
    let file = line(wide, &stored_at(70_000, &[2, 65_538])).unwrap();
    let differences = (2, vec![0; 4]);
    assert_eq!(
        file,
        raw(wide, 70_000, singles(&[2, 65_538]), differences, &[7, 7])
    );
    assert_eq!(checked(&file), 0);
}

#[test]
fn rank_0_has_a_jump_at_position_0_too() {
    let file = line(JUMPS, &[7, 7, 0]).unwrap();
    assert_eq!(file, raw(JUMPS, 3, singles(&[0]), bytes(&[0, 1]), &[7, 7]));
    assert_eq!(rank(&file, Position(0)), Ok(Ranked::Stored(Rank(0))));
}

#[test]
fn jumps_that_no_picture_has_are_6() {
    assert_eq!(kind_4(300, &[2], &[0, 1, 2, 5]), 0);
    // A jump where the difference fits, with 255 the last that does.
    assert_eq!(kind_4(300, &[2, 3], &[0, 0, 2, 5]), 6);
    assert_eq!(kind_4(300, &[2, 257], &[0, 0]), 6);
    assert_eq!(kind_4(300, &[2, 258], &[0, 0]), 0);
    // A difference 0 without a jump left, a jump left over, a first difference that isn't 0.
    assert_eq!(kind_4(300, &[2], &[0, 1, 0, 5]), 6);
    assert_eq!(kind_4(300, &[2, 290], &[0, 1, 2, 5]), 6);
    assert_eq!(kind_4(300, &[2], &[2, 1, 2, 5]), 6);
    assert_eq!(kind_4(300, &[], &[2, 1, 2, 5]), 6);
    // A jump back, to itself, past cells, and a difference past cells or 2^32.
    assert_eq!(kind_4(300, &[280, 2], &[0, 0]), 6);
    assert_eq!(kind_4(300, &[2, 2], &[0, 0]), 6);
    assert_eq!(kind_4(300, &[2, 300], &[0, 0]), 6);
    assert_eq!(kind_4(300, &[290], &[0, 10]), 6);
    assert_eq!(kind_4(300, &[u32::MAX], &[0, 3]), 6);
}

#[test]
fn a_write_may_add_or_remove_a_jump() {
    let file = line(JUMPS, &stored_at(600, &[2, 250])).unwrap();
    let written = |file: &[u8], at, word| write(file, Position(at), word, ROOM).unwrap();
    let added = written(&file, 550, 7);
    assert_eq!(
        jumps_and_differences(&added),
        (vec![2, 550], vec![0, 248, 0])
    );
    let removed = written(&added, 400, 7);
    assert_eq!(
        jumps_and_differences(&removed),
        (vec![2], vec![0, 248, 150, 150])
    );
    // Emptying 250 turns the next rank's difference to a jump.
    let turned = written(&removed, 250, 0);
    assert_eq!(
        jumps_and_differences(&turned),
        (vec![2, 400], vec![0, 0, 150])
    );
    // A cell before the first one takes over its jump.
    let before = written(&turned, 1, 7);
    assert_eq!(
        jumps_and_differences(&before),
        (vec![1, 400], vec![0, 1, 0, 150])
    );
    for file in [added, removed, turned, before] {
        assert_eq!(checked(&file), 0);
    }
}
