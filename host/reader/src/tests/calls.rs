//! "Easily got wrong": the calls, and what they give.

use super::*;
use crate::*;

#[test]
fn the_empty_word_among_the_stored_is_6() {
    for setting in sample_settings() {
        let file = sample(setting);
        let words_at = field(&file, 44) as usize;
        assert_eq!(checked(&with_field(&file, words_at + 4, 0)), 6);
        // Another empty word that stands among the stored words.
        assert_eq!(checked(&with_field(&file, 20, 300)), 6);
        assert_eq!(checked(&with_field(&file, 20, 301)), 0);
    }
}

#[test]
fn words_0_are_stored_where_the_empty_word_is_another() {
    for setting in sample_settings() {
        let words = [9, 0, 9, 9, 0, 5];
        let file = make(setting, 1, &[6, 1, 1, 1], 9, &words, ROOM).unwrap();
        let says = parsed(&file);
        assert_eq!(says.stored(), 3);
        assert_eq!(says.cell(Position(1)), Ok(0));
        assert_eq!(says.cell(Position(0)), Ok(9));
        assert_eq!(says.rank(Position(4)), Ok(Ranked::Stored(Rank(1))));
        assert_eq!(says.rank(Position(3)), Ok(Ranked::Empty(1)));
        assert_eq!(expand(&file, 6), Ok(words.to_vec()));
    }
}

#[test]
fn a_written_empty_word_empties_the_cell() {
    for setting in sample_settings() {
        let file = write(&sample(setting), Position(3), 0, ROOM).unwrap();
        let mut words = SAMPLE;
        words[3] = 0;
        assert_eq!(Ok(file), line(setting, &words));
    }
}

#[test]
fn make_says_7_for_too_few_and_too_many_words() {
    for lent in [0, 299, 301] {
        let words = vec![0; lent];
        for setting in sample_settings() {
            let made = make(setting, 1, &[300, 1, 1, 1], 0, &words, 0);
            assert_eq!(made, Err(Refusal::Picture));
        }
    }
    let mut unfit = stored_at(300, &[2, 258]);
    unfit.push(0);
    let made = make(Setting::new(3, 1, 2), 1, &[300, 1, 1, 1], 0, &unfit, 0);
    assert_eq!(made, Err(Refusal::Picture));
}

#[test]
fn make_refuses_in_the_papers_order() {
    let made = |kind, width, extent, words: &[u32]| {
        let setting = Setting::new(kind, width, 2);
        number(&make(setting, 1, &[extent, 1, 1, 1], 0, words, 0))
    };
    let unfit = stored_at(300, &[2, 258]);
    assert_eq!(made(7, 9, 0, &[]), 2);
    assert_eq!(made(6, 9, 0, &[]), 3);
    assert_eq!(made(3, 9, 0, &[]), 3);
    assert_eq!(made(3, 1, 0, &[]), 4);
    assert_eq!(made(3, 1, 300, &[]), 7);
    assert_eq!(made(3, 1, 300, &unfit), 9);
    assert_eq!(made(3, 2, 300, &unfit), 10);
    assert_eq!(made(6, 1, 300, &unfit), 10);
}

#[test]
fn the_second_file_is_judged_only_if_the_first_has_no_refusal() {
    let good = sample(Setting::new(1, 0, 0));
    let body = with_field(&good, 52, 99);
    let kind = with_byte(&good, 0, 9);
    assert_eq!(shorter(&body, &kind), Err(Refusal::Body));
    assert_eq!(shorter(&kind, &body), Err(Refusal::Kind));
    assert_eq!(shorter(&good, &kind), Err(Refusal::Kind));
    assert_eq!(shorter(&good, &good[..51]), Err(Refusal::Short));
    let other = line(Setting::new(1, 0, 0), &[0; 12]).unwrap();
    assert_eq!(shorter(&good, &other), Err(Refusal::Other));
}

#[test]
fn shorter_names_the_first_on_equal_length() {
    let [one, two, three, four, five, six] = sample_settings().map(sample);
    assert_eq!(shorter(&one, &two), Ok(1));
    assert_eq!(shorter(&two, &one), Ok(0));
    assert_eq!(shorter(&four, &three), Ok(0));
    assert_eq!(shorter(&five, &four), Ok(1));
    assert_eq!(shorter(&one, &one), Ok(0));
    // In the sample, kind 6 is 4 bytes longer than kind 4 and as long as kind 3.
    assert_eq!(shorter(&six, &four), Ok(1));
    assert_eq!(shorter(&six, &three), Ok(0));
    assert_eq!(shorter(&three, &six), Ok(0));
    // One page of kind 5 is as long as kind 1.
    let page = sample(Setting::new(5, 0, 3));
    assert_eq!(page.len(), one.len());
    assert_eq!(shorter(&one, &page), Ok(0));
    assert_eq!(shorter(&page, &one), Ok(0));
}

#[test]
fn change_judges_the_file_before_the_setting() {
    let good = sample(Setting::new(1, 0, 0));
    let body = with_field(&good, 52, 99);
    let changed = |file: &[u8], kind, width| change(file, Setting::new(kind, width, 0), 0);
    assert_eq!(changed(&body, 9, 9), Err(Refusal::Body));
    assert_eq!(changed(&good[..51], 9, 9), Err(Refusal::Short));
    assert_eq!(changed(&good, 9, 9), Err(Refusal::Kind));
    assert_eq!(changed(&good, 4, 9), Err(Refusal::Setting));
    assert_eq!(changed(&good, 4, 1), Err(Refusal::Small));
}

#[test]
fn change_gives_what_make_gives() {
    for from in sample_settings() {
        for to in sample_settings() {
            let wanted = sample(to);
            assert_eq!(change(&sample(from), to, wanted.len()), Ok(wanted));
        }
    }
}

#[test]
fn write_refuses_in_the_papers_order() {
    let file = line(Setting::new(3, 1, 2), &stored_at(300, &[2])).unwrap();
    let written = |file: &[u8], at, word| number(&write(file, Position(at), word, 0));
    assert_eq!(written(&with_field(&file, 52, 300), 300, 7), 6);
    assert_eq!(written(&file, 300, 7), 8);
    assert_eq!(written(&file, u32::MAX, 7), 8);
    assert_eq!(written(&file, 299, 7), 9);
    assert_eq!(written(&file, 3, 7), 10);
}

#[test]
fn lookups_beyond_are_8() {
    for setting in sample_settings() {
        let file = sample(setting);
        for at in [12, 13, u32::MAX] {
            assert_eq!(cell(&file, Position(at)), Err(Refusal::Beyond));
            assert_eq!(rank(&file, Position(at)), Err(Refusal::Beyond));
            assert_eq!(position(&file, Rank(at)), Err(Refusal::Beyond));
        }
        assert_eq!(cell(&file[..51], Position(99)), Err(Refusal::Short));
    }
}

#[test]
fn coordinates_refuse_in_the_papers_order() {
    let extents = [2, 3, 4, 5];
    let back = |at, room| position_coordinates(4, &extents, Position(at), room);
    assert_eq!(back(119, 4), Ok([1, 2, 3, 4]));
    assert_eq!(back(119, 3), Err(Refusal::Small));
    assert_eq!(back(120, 0), Err(Refusal::Beyond));
    for at in 0..120 {
        let coordinates = back(at, 4).unwrap();
        assert_eq!(
            coordinates_position(4, &extents, &coordinates),
            Ok(Position(at))
        );
    }
    assert_eq!(
        coordinates_position(4, &extents, &[1, 2, 3, 5]),
        Err(Refusal::Beyond)
    );
    assert_eq!(
        coordinates_position(0, &extents, &[9; 4]),
        Err(Refusal::Extent)
    );
}

#[test]
fn a_box_runs_in_row_order() {
    let words: Vec<u32> = (0..24).collect();
    let file = make(Setting::new(4, 1, 0), 3, &[2, 3, 4, 1], 5, &words, ROOM).unwrap();
    let boxed = |low: [u32; 4], high: [u32; 4]| box_words(&file, &low, &high, ROOM);
    let wanted = vec![5, 6, 9, 10, 17, 18, 21, 22];
    assert_eq!(boxed([0, 1, 1, 0], [1, 2, 2, 0]), Ok(wanted));
    assert_eq!(boxed([1, 2, 3, 0], [1, 2, 3, 0]), Ok(vec![23]));
    assert_eq!(boxed([0; 4], [1, 2, 3, 0]), Ok(words));
    assert_eq!(boxed([1, 0, 0, 0], [0, 2, 3, 0]), Err(Refusal::Beyond));
    assert_eq!(boxed([0, 1, 0, 0], [1, 0, 3, 0]), Err(Refusal::Beyond));
    assert_eq!(boxed([0; 4], [1, 2, 4, 0]), Err(Refusal::Beyond));
    let small = box_words(&file, &[1, 0, 0, 0], &[0, 0, 0, 0], 0);
    assert_eq!(small, Err(Refusal::Beyond));
}
