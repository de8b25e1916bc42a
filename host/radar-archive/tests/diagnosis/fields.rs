//! One field of the header damaged by itself: the byte told is the field's own, where the rest of the file tells.

use radar_archive::diagnosis::first_fault;
use radar_archive::{calls, Dimensions, Picture, Setting};

use crate::files::{line, sample, stored_at, with_byte, with_field};
use crate::rows::{five, of_bytes, of_fields, six, Change, Row};

/// The rows of fields that another test of the same number told before.
pub fn rows() -> Vec<Row> {
    let mut rows = of_bytes(3, KINDS);
    rows.extend(of_bytes(5, SETTINGS));
    rows.extend(of_fields(5, COUNTS));
    rows.push(another_step());
    rows.extend(steps_of_pointers());
    rows.extend(dimension_counts());
    rows.extend(too_few_cells());
    rows.push(too_many_cells());
    rows.extend(empty_words());
    rows
}

/// Kinds that do not allow the sample's width or step.
#[rustfmt::skip]
const KINDS: &[Change] = &[
    (3, 0, 1, "the kind is 1; the rest of the file agrees with 3", 0),
    (4, 0, 2, "the kind is 2; the rest of the file agrees with 4", 0),
    (5, 0, 4, "the kind is 4; the rest of the file agrees with 5", 0),
    (4, 0, 6, "the kind is 6; the rest of the file agrees with 4", 0),
    (6, 0, 4, "the kind is 4; the rest of the file agrees with 6", 0),
    (6, 0, 5, "the kind is 5; the rest of the file agrees with 6", 0),
];

/// Kinds, widths and steps that are allowed, but not the sample's.
#[rustfmt::skip]
const SETTINGS: &[Change] = &[
    (1, 0, 2, "the kind is 2; the rest of the file agrees with 1", 0),
    (2, 0, 1, "the kind is 1; the rest of the file agrees with 2", 0),
    (3, 0, 6, "the kind is 6; the rest of the file agrees with 3", 0),
    (6, 0, 3, "the kind is 3; the rest of the file agrees with 6", 0),
    (3, 2, 2, "the width is 2; the rest of the file agrees with 1", 2),
    (4, 2, 2, "the width is 2; the rest of the file agrees with 1", 2),
    (6, 2, 2, "the width is 2; the rest of the file agrees with 1", 2),
    (3, 3, 1, "the step is 1; the rest of the file agrees with 2", 3),
    (3, 3, 255, "the step is 255; the rest of the file agrees with 2", 3),
    (5, 3, 64, "the step is 64; the rest of the file agrees with 2", 3),
];

#[rustfmt::skip]
const COUNTS: &[Change] = &[
    (1, 24, 3, "the number of stored cells is 3; the rest of the file agrees with 4", 24),
    (1, 24, 0, "the number of stored cells is 0; the rest of the file agrees with 4", 24),
    (2, 24, 5, "the number of stored cells is 5; the rest of the file agrees with 4", 24),
    (3, 24, 12, "the number of stored cells is 12; the rest of the file agrees with 4", 24),
    (4, 24, 0, "the number of stored cells is 0; the rest of the file agrees with 4", 24),
    (5, 24, 1, "the number of stored cells is 1; the rest of the file agrees with 4", 24),
    (6, 24, 3, "the number of stored cells is 3; the rest of the file agrees with 4", 24),
    (1, 28, 2, "the number of runs is 2; the rest of the file agrees with 3", 28),
    (4, 28, 2, "the number of jumps is 2; the rest of the file agrees with 1", 28),
    (5, 32, 2, "the number of runs is 2; the rest of the file agrees with 3", 32),
    (6, 28, 0, "the number of jumps is 0; the rest of the file agrees with 1", 28),
    (6, 28, 2, "the number of jumps is 2; the rest of the file agrees with 1", 28),
];

/// Four stored cells at step 3 have as many bases as at step 2.
fn another_step() -> Row {
    let message = "the step is 3; the rest of the file agrees with 2";
    six(with_byte(sample(3), 3, 3), message, 3)
}

/// Kind 6 with another step: one that has other pointers, one that has as many, and one in place of all that have a single pointer.
fn steps_of_pointers() -> Vec<Row> {
    let of = |jumps: u32, step, wrong| {
        // Two stored cells for each jump.
        let stored: Vec<u32> = (0..jumps)
            .flat_map(|jump| [300 * jump, 300 * jump + 2])
            .collect();
        let file = line(Setting::pointed_jumps(1, step), &stored_at(2_000, &stored));
        with_byte(file, 3, wrong)
    };
    vec![
        five(
            of(5, 2, 1),
            "the step is 1; the rest of the file agrees with 2",
            3,
        ),
        five(
            of(5, 2, 200),
            "the step is 200; the rest of the file agrees with 2",
            3,
        ),
        six(
            of(4, 3, 2),
            "the step is 2; the rest of the file agrees with 3",
            3,
        ),
        five(
            of(4, 7, 3),
            "the step is 3; the rest of the file agrees with 4 to 255",
            3,
        ),
    ]
}

/// The file of a picture of 12 cells, all but the first four stored.
fn of_extents(extents: &[u32], setting: Setting) -> Vec<u8> {
    let picture = Picture {
        dimensions: Dimensions::of(extents).unwrap(),
        empty: 0,
        words: vec![0, 0, 0, 0, 5, 6, 7, 8, 9, 10, 11, 12],
    };
    picture.make(setting).unwrap()
}

/// The dimension count below the picture's.
fn dimension_counts() -> Vec<Row> {
    let message = "the dimension count is 1; the rest of the file agrees with 2";
    let of = |setting| with_byte(of_extents(&[3, 4], setting), 1, 1);
    vec![
        Row(of(Setting::runs()), 4, message, Some(1)),
        Row(of(Setting::positions()), 4, message, Some(1)),
    ]
}

/// An extent too small for the stored cells: for their number, and for the last of them.
#[rustfmt::skip]
fn too_few_cells() -> Vec<Row> {
    let by_four = |at, extent| with_field(of_extents(&[3, 4], Setting::positions()), at, extent);
    let by_three = |at, extent| with_field(of_extents(&[4, 3], Setting::paged_runs(2)), at, extent);
    let line = |kind, extent| with_field(sample(kind), 4, extent);
    // No entry by itself could be lower: the one before it is at the last cell.
    let all_in_a_row = |setting| with_field(of_extents(&[12], setting), 4, 11);
    // The first jump, to position 4, could be 4 lower, and with it all that follow.
    let of_jumps = with_field(of_extents(&[3, 4], Setting::jumps(1)), 4, 2);
    vec![
        five(by_four(4, 1), "the header says 8 stored cells of 4 cells", 4),
        five(by_four(8, 1), "the header says 8 stored cells of 3 cells", 8),
        five(line(2, 3), "the header says 4 stored cells of 3 cells", 4),
        six(by_four(4, 2), "the last stored cell is at position 11; by the extents the last cell is at position 7", 4),
        six(by_three(8, 2), "the last stored cell is at position 11; by the extents the last cell is at position 7", 8),
        six(line(2, 5), "the last stored cell is at position 10; by the extents the last cell is at position 4", 4),
        six(line(1, 10), "the last stored cell is at position 10; by the extents the last cell is at position 9", 4),
        six(line(5, 10), "the last stored cell is at position 10; by the extents the last cell is at position 9", 4),
        six(all_in_a_row(Setting::positions()), "the last stored cell is at position 11; by the extents the last cell is at position 10", 4),
        six(all_in_a_row(Setting::base_offset(1, 4)), "the last stored cell is at position 11; by the extents the last cell is at position 10", 4),
        six(line(4, 6), "the last stored cell is at position 10; by the extents the last cell is at position 5", 4),
        six(line(6, 6), "the last stored cell is at position 10; by the extents the last cell is at position 5", 4),
        six(of_jumps, "difference 1 from position 7 puts rank 4 at position 8; the last cell is at position 7", 60),
    ]
}

/// The second extent too large.
fn too_many_cells() -> Row {
    let file = with_field(of_extents(&[3, 4], Setting::jumps(1)), 8, 1 << 24);
    let message = "the extents 3 x 16777216 hold more than 16,777,216 cells";
    Row(file, 4, message, Some(8))
}

/// The empty word is a word that is stored more than once.
fn empty_words() -> Vec<Row> {
    let file = line(Setting::positions(), &[7, 0, 9, 7, 7]);
    let message = "the empty word is 7, and so are 3 stored words";
    vec![six(with_field(file, 20, 7), message, 20)]
}

/// The fields of 4 bytes.
const FIELDS: [usize; 12] = [4, 8, 12, 16, 20, 24, 28, 32, 36, 40, 44, 48];

/// Each field of the sample files with values near its own and far from it: what is refused is told with the field's byte.
///
/// Some damage cannot be told from damage elsewhere: an extent that the last entry alone exceeds and might not, an empty word that is one stored word,
/// and kind 3 in place of kind 4, which another step would mend too.
#[test]
fn each_field_by_itself() {
    let mut told = 0;
    for kind in 1..=6 {
        let file = sample(kind);
        for at in FIELDS {
            let own = u32::from_le_bytes(file[at..at + 4].try_into().unwrap());
            for more in (0..=20).chain([84, 255, 65_536, 1 << 24, 1 << 31]) {
                for value in [own.wrapping_add(more), own.wrapping_sub(more)] {
                    let bad = with_field(file.clone(), at, value);
                    told += usize::from(one_field(&bad, at, kind));
                }
            }
        }
        for at in 0..4 {
            for value in 0..=255 {
                told += usize::from(one_field(&with_byte(file.clone(), at, value), at, kind));
            }
        }
    }
    assert!(told > 5_000, "{told}");
}

/// Wants the byte of a damaged field of a refused file. Gives whether the file is refused.
fn one_field(file: &[u8], at: usize, kind: u32) -> bool {
    let Err(refusal) = calls::check(file) else {
        return false;
    };
    let fault = first_fault(file).unwrap();
    assert_eq!(fault.refusal, refusal);
    let right = match (kind, at, fault.byte) {
        // Rank 2 is at position 5, so rank 3 by itself could be at 6.
        (2..=4 | 6, 4, Some(byte)) if byte >= 52 => file[4] > 6,
        (_, 20, Some(byte)) if byte >= 52 => fault.message.ends_with("the empty word"),
        (4, 0, Some(3)) => file[0] == 3,
        (_, _, byte) => byte == Some(at),
    };
    assert!(right, "kind {kind}, field {at}: {fault}");
    true
}
