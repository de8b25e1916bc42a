//! M1 to M12, and what stands beside them.

use super::*;
use crate::*;

#[test]
fn m1_runs() {
    let file = sample(Setting::new(1, 0, 0));
    let first = pairs(&[(3, 2), (5, 3), (10, 7)]);
    let wanted = raw(Setting::new(1, 0, 0), 12, first, none(), &[7, 9, 5, 300]);
    assert_eq!(file, wanted);
    assert_eq!(file.len(), 92);
}

#[test]
fn m2_positions() {
    let file = sample(Setting::new(2, 0, 0));
    let first = singles(&[2, 3, 5, 10]);
    let wanted = raw(Setting::new(2, 0, 0), 12, first, none(), &[7, 9, 5, 300]);
    assert_eq!(file, wanted);
    assert_eq!(file.len(), 84);
}

#[test]
fn m3_base_and_offset() {
    let file = sample(Setting::new(3, 1, 2));
    let (first, second) = (singles(&[2, 5]), bytes(&[0, 1, 0, 5]));
    let wanted = raw(Setting::new(3, 1, 2), 12, first, second, &[7, 9, 5, 300]);
    assert_eq!(file, wanted);
    assert_eq!(file.len(), 80);
}

#[test]
fn m4_jumps() {
    let file = sample(Setting::new(4, 1, 0));
    let (first, second) = (singles(&[2]), bytes(&[0, 1, 2, 5]));
    let wanted = raw(Setting::new(4, 1, 0), 12, first, second, &[7, 9, 5, 300]);
    assert_eq!(file, wanted);
    assert_eq!(file.len(), 76);
}

#[test]
fn m5_paged_runs() {
    let file = sample(Setting::new(5, 0, 2));
    let first = pairs(&[(6, 3), (11, 7)]);
    let second = pairs(&[(4, 2), (6, 3), (5, 4)]);
    let wanted = raw(Setting::new(5, 0, 2), 12, first, second, &[7, 9, 5, 300]);
    assert_eq!(file, wanted);
    assert_eq!(file.len(), 108);
}

#[test]
fn m6_rank_at_5() {
    for setting in sample_settings() {
        let found = rank(&sample(setting), Position(5));
        assert_eq!(found, Ok(Ranked::Stored(Rank(2))));
    }
}

#[test]
fn m7_empty_at_6_and_11() {
    for setting in sample_settings() {
        let file = sample(setting);
        assert_eq!(rank(&file, Position(6)), Ok(Ranked::Empty(3)));
        assert_eq!(rank(&file, Position(11)), Ok(Ranked::Empty(4)));
    }
}

#[test]
fn m8_position_of_rank_3_and_4() {
    for setting in sample_settings() {
        let file = sample(setting);
        assert_eq!(position(&file, Rank(3)), Ok(Position(10)));
        assert_eq!(position(&file, Rank(4)), Err(Refusal::Beyond));
    }
}

#[test]
fn m9_all_empty() {
    let file = line(Setting::new(1, 0, 0), &[0; 12]).unwrap();
    assert_eq!(file.len(), 52);
    assert_eq!(file, raw(Setting::new(1, 0, 0), 12, none(), none(), &[]));
}

#[test]
fn m10_all_stored() {
    let file = line(Setting::new(1, 0, 0), &[5; 12]).unwrap();
    let wanted = raw(
        Setting::new(1, 0, 0),
        12,
        pairs(&[(11, 0)]),
        none(),
        &[5; 12],
    );
    assert_eq!(file, wanted);
}

#[test]
fn m11_differences_of_255_and_256() {
    let setting = Setting::new(4, 1, 0);
    let fits = line(setting, &stored_at(300, &[2, 257])).unwrap();
    assert_eq!(
        fits,
        raw(setting, 300, singles(&[2]), bytes(&[0, 255]), &[7, 7])
    );
    let jumps = line(setting, &stored_at(300, &[2, 258])).unwrap();
    assert_eq!(
        jumps,
        raw(setting, 300, singles(&[2, 258]), bytes(&[0, 0]), &[7, 7])
    );
}

#[test]
fn m12_unfit_with_step_2_made_with_step_1() {
    let words = stored_at(300, &[2, 258]);
    assert_eq!(line(Setting::new(3, 1, 2), &words), Err(Refusal::Unfit));
    let setting = Setting::new(3, 1, 1);
    let wanted = raw(setting, 300, singles(&[2, 258]), bytes(&[0, 0]), &[7, 7]);
    assert_eq!(line(setting, &words), Ok(wanted));
}

#[test]
fn also_step_64_passes_and_65_is_3() {
    assert!(line(Setting::new(5, 0, 64), &SAMPLE).is_ok());
    assert_eq!(line(Setting::new(5, 0, 65), &SAMPLE), Err(Refusal::Setting));
    assert_eq!(
        checked(&with_byte(&sample(Setting::new(5, 0, 64)), 3, 65)),
        3
    );
}

#[test]
fn also_extent_of_16777216_passes_and_one_more_is_4() {
    let words = vec![0; 16_777_216];
    let setting = Setting::new(1, 0, 0);
    let file = make(setting, 1, &[16_777_216, 1, 1, 1], 0, &words, 52).unwrap();
    assert_eq!(checked(&file), 0);
    let more = make(setting, 1, &[16_777_217, 1, 1, 1], 0, &words, 52);
    assert_eq!(more, Err(Refusal::Extent));
    assert_eq!(checked(&with_field(&file, 4, 16_777_217)), 4);
}

#[test]
fn also_coordinates_1_2_of_3_by_4_are_position_6() {
    let extents = [3, 4, 1, 1];
    assert_eq!(
        coordinates_position(2, &extents, &[1, 2, 0, 0]),
        Ok(Position(6))
    );
    assert_eq!(
        position_coordinates(2, &extents, Position(6), 4),
        Ok([1, 2, 0, 0])
    );
}

#[test]
fn the_refusals_have_the_papers_numbers_and_words() {
    use Refusal::*;
    let all = [
        Short, Kind, Setting, Extent, Counts, Body, Picture, Beyond, Unfit, Small, Other,
    ];
    let words = "short kind setting extent counts body picture beyond unfit small other";
    let named: Vec<&str> = all.iter().map(|refusal| refusal.word()).collect();
    assert_eq!(named.join(" "), words);
    for (number, refusal) in (1..).zip(all) {
        assert_eq!(refusal.number(), number);
    }
}
