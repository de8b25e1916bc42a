//! The sentences of numbers 1 to 5.

use crate::files::{sample, with_byte, with_field};
use crate::rows::{five, of_bytes, of_fields, Change, Row};

/// The rows of numbers 1 to 5.
pub fn rows() -> Vec<Row> {
    let mut rows = short();
    rows.extend(of_bytes(2, KINDS));
    rows.extend(of_bytes(3, SETTINGS));
    rows.push(both());
    rows.extend(EXTENTS.iter().map(extents));
    rows.extend(of_fields(5, COUNTS));
    rows.extend(of_fields(5, OFFSETS));
    rows.extend(two_numbers());
    rows.extend(other_lengths());
    rows
}

fn short() -> Vec<Row> {
    let row = |count: usize, message| Row(sample(2)[..count].to_vec(), 1, message, None);
    vec![
        row(0, "it has 0 bytes; a header alone has 52"),
        row(1, "it has 1 byte; a header alone has 52"),
        row(13, "it has 13 bytes; a header alone has 52"),
        row(51, "it has 51 bytes; a header alone has 52"),
    ]
}

const KINDS: &[Change] = &[
    (2, 0, 0, "kind 0; the kinds are 1 to 6", 0),
    (2, 0, 7, "kind 7; the kinds are 1 to 6", 0),
];

const SETTINGS: &[Change] = &[
    (1, 2, 1, "kind 1 has width 0, not 1", 2),
    (1, 3, 2, "kind 1 has step 0, not 2", 3),
    (2, 2, 255, "kind 2 has width 0, not 255", 2),
    (2, 3, 1, "kind 2 has step 0, not 1", 3),
    (3, 2, 0, "kind 3 has width 1 or 2, not 0", 2),
    (3, 3, 0, "kind 3 has step 1 to 255, not 0", 3),
    (4, 2, 3, "kind 4 has width 1 or 2, not 3", 2),
    (4, 3, 1, "kind 4 has step 0, not 1", 3),
    (5, 2, 1, "kind 5 has width 0, not 1", 2),
    (5, 3, 1, "kind 5 has step 2 to 64, not 1", 3),
    (5, 3, 65, "kind 5 has step 2 to 64, not 65", 3),
    (6, 2, 0, "kind 6 has width 1 or 2, not 0", 2),
    (6, 3, 0, "kind 6 has step 1 to 255, not 0", 3),
];

/// Width and step wrong.
fn both() -> Row {
    let file = with_byte(with_byte(sample(5), 2, 1), 3, 1);
    Row(file, 3, "kind 5 has width 0, not 1", Some(2))
}

/// Dimension count and extents, message and byte.
type Extents = (u8, [u32; 4], &'static str, usize);

const LARGE: u32 = 1 << 31;

#[rustfmt::skip]
const EXTENTS: &[Extents] = &[
    (0, [12, 1, 1, 1], "0 dimensions; a picture has 1 to 4", 1),
    (5, [12, 1, 1, 1], "5 dimensions; a picture has 1 to 4", 1),
    (1, [0, 1, 1, 1], "the extent of dimension 0 is 0; an extent is at least 1", 4),
    (4, [LARGE, 3, 2, 0], "the extent of dimension 3 is 0; an extent is at least 1", 16),
    (2, [12, 1, 0, 1], "an extent past the dimension count is 0, not 1", 12),
    (1, [12, 2, 1, 1], "an extent past the dimension count is 2, not 1", 8),
    (3, [12, 1, 1, LARGE], "an extent past the dimension count is 2147483648, not 1", 16),
    (1, [16_777_217, 1, 1, 1], "the extent 16777217 holds more than 16,777,216 cells", 4),
    (2, [65_536, 65_536, 1, 1], "the extents 65536 x 65536 hold more than 16,777,216 cells", 4),
    (2, [LARGE, 2, 1, 1], "the extents 2147483648 x 2 hold more than 16,777,216 cells", 4),
    (4, [65_536; 4], "the extents 65536 x 65536 x 65536 x 65536 hold more than 16,777,216 cells", 4),
];

/// M2 with other dimensions.
fn extents(&(count, extents, message, byte): &Extents) -> Row {
    let mut file = with_byte(sample(2), 1, count);
    for (index, extent) in extents.into_iter().enumerate() {
        file = with_field(file, 4 + 4 * index, extent);
    }
    Row(file, 4, message, Some(byte))
}

#[rustfmt::skip]
const COUNTS: &[Change] = &[
    (2, 24, 13, "the header says 13 stored cells of 12 cells", 24),
    (1, 28, 5, "the header says 5 runs, more than its 4 stored cells", 28),
    (4, 28, u32::MAX, "the header says 4294967295 jumps, more than its 4 stored cells", 28),
    (6, 28, 5, "the header says 5 jumps, more than its 4 stored cells", 28),
    (5, 32, 5, "the header says 5 runs, more than its 4 stored cells", 32),
    (2, 28, 3, "the entry count of the first part is 3, not 4, the number of stored cells", 28),
    (3, 28, 4, "the entry count of the first part is 4, not 2, the bases of 4 stored cells at step 2", 28),
    (5, 28, 3, "the entry count of the first part is 3, not 2, the entries above level 0 of 3 runs at step 2", 28),
    (1, 32, 1, "the entry count of the second part is 1, not 0, since kind 1 has no second part", 32),
    (2, 32, 4, "the entry count of the second part is 4, not 0, since kind 2 has no second part", 32),
    (3, 32, 5, "the entry count of the second part is 5, not 4, the number of stored cells", 32),
    (4, 32, 0, "the entry count of the second part is 0, not 4, the number of stored cells", 32),
    (6, 32, 5, "the entry count of the second part is 5, not 4, the number of stored cells", 32),
];

#[rustfmt::skip]
const OFFSETS: &[Change] = &[
    (1, 36, 51, "the offset of the first part is 51, not 52", 36),
    (1, 40, 52, "the offset of the second part is 52, not 76", 40),
    (3, 40, u32::MAX, "the offset of the second part is 4294967295, not 60", 40),
    (4, 44, 56, "the offset of the stored words is 56, not 60", 44),
    (5, 44, 0, "the offset of the stored words is 0, not 92", 44),
    (6, 40, 60, "the offset of the second part is 60, not 56", 40),
    (6, 44, 60, "the offset of the stored words is 60, not 64, behind the differences and 1 pointer", 44),
    (6, 48, 76, "the length in the header is 76; header, parts and words have 80 bytes", 48),
    (5, 48, 107, "the length in the header is 107; header, parts and words have 108 bytes", 48),
];

/// Two numbers changed, so that something is there once.
fn two_numbers() -> Vec<Row> {
    let cells = with_field(with_field(sample(2), 4, 1), 24, 2);
    let stored = with_field(with_field(sample(1), 24, 1), 28, 2);
    let message = "the header says 2 runs, more than its 1 stored cell";
    vec![
        five(cells, "the header says 2 stored cells of 1 cell", 24),
        five(stored, message, 28),
    ]
}

/// M2 with a byte less or more, the latter also with the length in the header one more.
fn other_lengths() -> Vec<Row> {
    let cut = sample(2)[..83].to_vec();
    let longer = [sample(2), vec![0]].concat();
    let both = with_field(longer.clone(), 48, 85);
    let message = "the length in the header is 85; header, parts and words have 84 bytes";
    vec![
        five(
            cut,
            "the length in the header is 84, the file has 83 bytes",
            48,
        ),
        five(
            longer,
            "the length in the header is 84, the file has 85 bytes",
            48,
        ),
        five(both, message, 48),
    ]
}
