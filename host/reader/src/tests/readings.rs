//! The readings of document 01 that a file or a call shows.

use super::*;
use crate::*;

#[test]
fn a1_the_entry_count_of_kind_1_is_the_number_of_runs() {
    let file = line(Setting::new(1, 0, 0), &stored_at(6, &[1, 3, 5])).unwrap();
    assert_eq!(field(&file, 24), 3);
    assert_eq!(field(&file, 28), 3);
    assert_eq!(field(&file, 32), 0);
    assert_eq!(file.len(), 52 + 24 + 12);
}

#[test]
fn a2_the_first_count_of_kind_5_is_fixed_and_may_exceed_n() {
    let every_other: Vec<usize> = (0..9).map(|run| 2 * run).collect();
    let file = line(Setting::new(5, 0, 2), &stored_at(17, &every_other)).unwrap();
    assert_eq!(
        (field(&file, 24), field(&file, 28), field(&file, 32)),
        (9, 10, 9)
    );
    assert_eq!(checked(&file), 0);
    let upper = pairs(&[(6, 3), (11, 7), (11, 7)]);
    let level_0 = pairs(&[(4, 2), (6, 3), (5, 4)]);
    let file = raw(Setting::new(5, 0, 2), 12, upper, level_0, &[7, 9, 5, 300]);
    assert_eq!(checked(&file), 5);
}

#[test]
fn a3_a_free_count_with_agreeing_offsets_goes_on_to_6() {
    let words = [7, 9, 5, 300];
    for first in [
        none(),
        pairs(&[(3, 2)]),
        pairs(&[(3, 2), (5, 3), (9, 6), (10, 6)]),
    ] {
        let file = raw(Setting::new(1, 0, 0), 12, first, none(), &words);
        assert_eq!(checked(&file), 6);
    }
    let file = raw(
        Setting::new(4, 1, 0),
        12,
        none(),
        bytes(&[0, 1, 2, 5]),
        &words,
    );
    assert_eq!(checked(&file), 6);
    let file = raw(Setting::new(5, 0, 2), 12, none(), none(), &words);
    assert_eq!(checked(&file), 6);
    let differences = pointed(&[0, 1, 2, 5], &[]);
    let file = raw(Setting::new(6, 1, 2), 12, none(), differences, &words);
    assert_eq!(checked(&file), 6);
}

#[test]
fn a4_absent_parts() {
    let empty = [0; 12];
    for setting in sample_settings() {
        let file = line(setting, &empty).unwrap();
        let offsets = [36, 40, 44, 48].map(|at| field(&file, at));
        assert_eq!(offsets, [52; 4]);
        assert_eq!(checked(&file), 0);
    }
    for setting in [Setting::new(1, 0, 0), Setting::new(2, 0, 0)] {
        let file = sample(setting);
        assert_eq!(field(&file, 40), field(&file, 44));
    }
    let file = sample(Setting::new(5, 0, 3));
    assert_eq!((field(&file, 36), field(&file, 40)), (52, 52));
}

#[test]
fn a5_dimensions_handed_to_a_call() {
    let setting = Setting::new(1, 0, 0);
    let made = |count, extents: &[u32]| make(setting, count, extents, 0, &[0; 12], ROOM);
    for extents in [
        &[12, 1, 1, 2][..],
        &[12, 0, 1, 1],
        &[12, 1, 1],
        &[12, 1, 1, 1, 1],
        &[],
    ] {
        assert_eq!(made(1, extents), Err(Refusal::Extent));
        let position = coordinates_position(1, extents, &[99; 4]);
        assert_eq!(position, Err(Refusal::Extent));
        let at = position_coordinates(1, extents, Position(99), 0);
        assert_eq!(at, Err(Refusal::Extent));
    }
    assert_eq!(made(0, &[1, 1, 1, 1]), Err(Refusal::Extent));
    assert_eq!(made(5, &[12, 1, 1, 1]), Err(Refusal::Extent));
}

#[test]
fn a6_coordinates_past_the_count_are_0() {
    let at = |at: &[u32]| coordinates_position(1, &[12, 1, 1, 1], at);
    assert_eq!(at(&[11, 0, 0, 0]), Ok(Position(11)));
    for wrong in [
        &[12, 0, 0, 0][..],
        &[11, 1, 0, 0],
        &[11, 0, 0, 1],
        &[11],
        &[11, 0, 0, 0, 0],
    ] {
        assert_eq!(at(wrong), Err(Refusal::Beyond));
        let file = sample(Setting::new(4, 1, 0));
        assert_eq!(box_words(&file, &[0; 4], wrong, ROOM), Err(Refusal::Beyond));
        assert_eq!(
            box_words(&file, wrong, &[11, 0, 0, 0], ROOM),
            Err(Refusal::Beyond)
        );
    }
}

#[test]
fn a7_the_count_of_dimensions_counts_for_11() {
    let file = sample(Setting::new(1, 0, 0));
    let two = with_byte(&file, 1, 2);
    assert_eq!(checked(&two), 0);
    assert_eq!(shorter(&file, &two), Err(Refusal::Other));
}

#[test]
fn a8_equal_stored_words_at_other_positions_are_11() {
    let setting = Setting::new(2, 0, 0);
    let one = line(setting, &[0, 7, 0]).unwrap();
    let two = line(setting, &[0, 0, 7]).unwrap();
    assert_eq!(shorter(&one, &two), Err(Refusal::Other));
    let other_empty = make(setting, 1, &[3, 1, 1, 1], 1, &[0, 7, 0], ROOM).unwrap();
    assert_eq!(shorter(&one, &other_empty), Err(Refusal::Other));
}

#[test]
fn a9_rank_ranges() {
    let file = sample(Setting::new(2, 0, 0));
    let part = |from, to| rank_range(&file, Rank(from), Rank(to));
    assert_eq!(part(0, 4), Ok((68, 16)));
    assert_eq!(part(1, 3), Ok((72, 8)));
    assert_eq!(part(2, 2), Ok((76, 0)));
    assert_eq!(part(4, 4), Ok((84, 0)));
    assert_eq!(part(3, 2), Err(Refusal::Beyond));
    assert_eq!(part(4, 5), Err(Refusal::Beyond));
    assert_eq!(part(5, 5), Err(Refusal::Beyond));
}

#[test]
fn a10_expand_and_box_count_words() {
    let file = sample(Setting::new(5, 0, 2));
    assert_eq!(expand(&file, 12), Ok(SAMPLE.to_vec()));
    assert_eq!(expand(&file, 11), Err(Refusal::Small));
    let boxed = |room| box_words(&file, &[2, 0, 0, 0], &[5, 0, 0, 0], room);
    assert_eq!(boxed(4), Ok(vec![7, 9, 0, 5]));
    assert_eq!(boxed(3), Err(Refusal::Small));
}

#[test]
fn a14_writing_the_word_already_there() {
    for setting in sample_settings() {
        let file = sample(setting);
        assert_eq!(write(&file, Position(2), 7, file.len()), Ok(file.clone()));
        assert_eq!(write(&file, Position(0), 0, file.len()), Ok(file.clone()));
        assert_eq!(
            write(&file, Position(2), 7, file.len() - 1),
            Err(Refusal::Small)
        );
        assert_eq!(change(&file, setting, file.len()), Ok(file.clone()));
        assert_eq!(change(&file, setting, file.len() - 1), Err(Refusal::Small));
    }
}

#[test]
fn a15_unfit_comes_before_small() {
    let words = stored_at(300, &[2, 258]);
    let unfit = Setting::new(3, 1, 2);
    let made = make(unfit, 1, &[300, 1, 1, 1], 0, &words, 0);
    assert_eq!(made, Err(Refusal::Unfit));
    let file = line(Setting::new(2, 0, 0), &words).unwrap();
    assert_eq!(change(&file, unfit, 0), Err(Refusal::Unfit));
    let file = line(unfit, &stored_at(300, &[2])).unwrap();
    assert_eq!(write(&file, Position(258), 7, 0), Err(Refusal::Unfit));
    assert_eq!(write(&file, Position(257), 7, 0), Err(Refusal::Small));
}

#[test]
fn a16_settings_are_never_cut_to_a_byte() {
    for setting in [Setting::new(257, 0, 0), Setting::new(1 << 31, 0, 0)] {
        assert_eq!(line(setting, &SAMPLE), Err(Refusal::Kind));
    }
    for (kind, width, step) in [
        (3, 257, 1),
        (3, 1, 257),
        (1, 256, 0),
        (4, 1, 256),
        (5, 0, 258),
        (6, 257, 1),
        (6, 1, 257),
    ] {
        let wanted = Setting::new(kind, width, step);
        assert_eq!(line(wanted, &SAMPLE), Err(Refusal::Setting));
        let file = sample(Setting::new(1, 0, 0));
        assert_eq!(change(&file, wanted, ROOM), Err(Refusal::Setting));
    }
    assert_eq!(
        make(Setting::new(1, 0, 0), 257, &[12, 1, 1, 1], 0, &SAMPLE, ROOM),
        Err(Refusal::Extent)
    );
}
