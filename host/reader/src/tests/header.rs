//! "Easily got wrong": header and counts.

use super::*;
use crate::*;

#[test]
fn the_product_of_extents_never_wraps() {
    let lent = |count, extents: [u32; 4]| coordinates_position(count, &extents, &[0; 4]);
    assert_eq!(lent(4, [65_536; 4]), Err(Refusal::Extent));
    assert_eq!(lent(2, [1 << 31, 2, 1, 1]), Err(Refusal::Extent));
    assert_eq!(lent(3, [65_536, 65_536, 0, 1]), Err(Refusal::Extent));
    assert_eq!(lent(3, [5, 0, 5, 1]), Err(Refusal::Extent));
    assert_eq!(lent(2, [4096, 4096, 1, 1]), Ok(Position(0)));
    assert_eq!(lent(2, [4096, 4097, 1, 1]), Err(Refusal::Extent));
}

#[test]
fn the_product_never_wraps_in_a_file() {
    let file = sample(Setting::new(2, 0, 0));
    for (count, extents) in [
        (4, [65_536; 4]),
        (2, [1 << 31, 2, 1, 1]),
        (2, [12, 0, 1, 1]),
    ] {
        let mut other = with_byte(&file, 1, count);
        other[4..20].copy_from_slice(&fours(&extents));
        assert_eq!(checked(&other), 4);
    }
}

#[test]
fn counts_are_compared_before_sizes() {
    for (setting, at) in [
        ((1, 0, 0), 28),
        ((4, 1, 0), 28),
        ((5, 0, 2), 32),
        ((6, 1, 2), 28),
    ] {
        let file = sample(Setting::new(setting.0, setting.1, setting.2));
        for claim in [u32::MAX, 1 << 29, 1 << 30, 1 << 31, 5, 13] {
            assert_eq!(checked(&with_field(&file, at, claim)), 5);
        }
    }
    // N of 2^30 makes 4 N wrap to 0 in 32 bits.
    for setting in sample_settings() {
        assert_eq!(checked(&with_field(&sample(setting), 24, 1 << 30)), 5);
        assert_eq!(checked(&with_field(&sample(setting), 24, u32::MAX)), 5);
    }
}

#[test]
fn a_count_above_n_is_5_even_with_agreeing_offsets() {
    let five = pairs(&[(2, 2), (3, 2), (5, 3), (6, 4), (10, 7)]);
    let file = raw(
        Setting::new(1, 0, 0),
        12,
        five.clone(),
        none(),
        &[7, 9, 5, 300],
    );
    assert_eq!(checked(&file), 5);
    let jumps = singles(&[2, 3, 5, 10, 11]);
    let file = raw(
        Setting::new(4, 1, 0),
        12,
        jumps,
        bytes(&[0; 4]),
        &[7, 9, 5, 300],
    );
    assert_eq!(checked(&file), 5);
    let file = raw(Setting::new(5, 0, 64), 12, none(), five, &[7, 9, 5, 300]);
    assert_eq!(checked(&file), 5);
    let file = raw(
        Setting::new(6, 1, 2),
        12,
        singles(&[2, 3, 5, 10, 11]),
        pointed(&[0; 4], &[0, 2, 4]),
        &[7, 9, 5, 300],
    );
    assert_eq!(checked(&file), 5);
}

#[test]
fn n_above_cells_is_5_even_with_agreeing_offsets() {
    let first = singles(&[0, 1, 2]);
    let file = raw(Setting::new(2, 0, 0), 2, first, none(), &[7, 7, 7]);
    assert_eq!(checked(&file), 5);
}

#[test]
fn width_and_step_are_tested_before_they_are_used() {
    let file = sample(Setting::new(3, 1, 2));
    assert_eq!(checked(&with_byte(&file, 3, 0)), 3);
    assert_eq!(checked(&with_byte(&file, 2, 0)), 3);
    assert_eq!(checked(&with_byte(&file, 2, 3)), 3);
    let file = sample(Setting::new(5, 0, 2));
    assert_eq!(checked(&with_byte(&file, 3, 0)), 3);
    assert_eq!(checked(&with_byte(&file, 3, 1)), 3);
    let pointers = sample(Setting::new(6, 1, 2));
    assert_eq!(checked(&with_byte(&pointers, 3, 0)), 3);
    assert_eq!(checked(&with_byte(&pointers, 2, 0)), 3);
    assert_eq!(checked(&with_byte(&pointers, 2, 3)), 3);
    assert_eq!(line(Setting::new(6, 1, 0), &SAMPLE), Err(Refusal::Setting));
    assert_eq!(line(Setting::new(3, 1, 0), &SAMPLE), Err(Refusal::Setting));
    assert_eq!(line(Setting::new(5, 0, 1), &SAMPLE), Err(Refusal::Setting));
    assert_eq!(
        change(&file, Setting::new(5, 0, 0), ROOM),
        Err(Refusal::Setting)
    );
}

#[test]
fn the_settings_allowed() {
    let allowed = |kind, width, step| number(&Setting::new(kind, width, step).check());
    for (kind, width, step) in [
        (1, 0, 0),
        (2, 0, 0),
        (3, 1, 1),
        (3, 2, 255),
        (4, 2, 0),
        (5, 0, 64),
        (6, 1, 1),
        (6, 2, 255),
    ] {
        assert_eq!(allowed(kind, width, step), 0);
    }
    for (kind, width, step) in [
        (1, 1, 0),
        (1, 0, 1),
        (2, 1, 0),
        (2, 0, 1),
        (3, 0, 1),
        (3, 3, 1),
    ] {
        assert_eq!(allowed(kind, width, step), 3);
    }
    for (kind, width, step) in [
        (3, 1, 256),
        (4, 0, 0),
        (4, 3, 0),
        (4, 1, 1),
        (5, 1, 2),
        (5, 0, 1),
        (6, 0, 1),
        (6, 3, 1),
        (6, 1, 0),
        (6, 1, 256),
    ] {
        assert_eq!(allowed(kind, width, step), 3);
    }
    assert_eq!(allowed(0, 0, 0), 2);
    assert_eq!(allowed(7, 1, 1), 2);
    assert_eq!(allowed(7, 0, 0), 2);
}

#[test]
fn bytes_lent_beyond_the_length_are_5() {
    for setting in sample_settings() {
        let mut file = sample(setting);
        file.push(0);
        assert_eq!(checked(&file), 5);
        file.truncate(file.len() - 2);
        assert_eq!(checked(&file), 5);
    }
}

#[test]
fn extents_past_the_count_are_tested_in_the_file() {
    let file = sample(Setting::new(1, 0, 0));
    for at in [8, 12, 16] {
        assert_eq!(checked(&with_field(&file, at, 0)), 4);
        assert_eq!(checked(&with_field(&file, at, 2)), 4);
    }
    assert_eq!(checked(&with_byte(&file, 1, 0)), 4);
    assert_eq!(checked(&with_byte(&file, 1, 5)), 4);
    assert_eq!(checked(&with_byte(&file, 1, 2)), 0);
}

#[test]
fn the_numbers_of_a_file_rise() {
    let file = sample(Setting::new(2, 0, 0));
    let body = with_field(&file, 52, 99);
    assert_eq!(checked(&body), 6);
    let counts = with_field(&body, 24, 99);
    assert_eq!(checked(&counts), 5);
    let extent = with_field(&counts, 4, 0);
    assert_eq!(checked(&extent), 4);
    let setting = with_byte(&extent, 2, 1);
    assert_eq!(checked(&setting), 3);
    let kind = with_byte(&setting, 0, 0);
    assert_eq!(checked(&kind), 2);
    assert_eq!(checked(&kind[..51]), 1);
}

#[test]
fn every_count_and_offset_off_by_one_is_5() {
    for setting in sample_settings() {
        let file = sample(setting);
        for at in (24..52).step_by(4) {
            let value = field(&file, at);
            assert_eq!(checked(&with_field(&file, at, value + 1)), 5);
            assert_eq!(checked(&with_field(&file, at, value.wrapping_sub(1))), 5);
        }
    }
}
