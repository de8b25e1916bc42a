//! Damaged and forged files.

use reader::Parsed;

use crate::agreeing::{self, AGREEING};
use crate::pointers::{self, POINTERS};
use crate::random::Random;

/// A damaged file with the place that was damaged.
pub type Forged = (String, Vec<u8>);

/// The header's fields of 4 bytes, by offset.
const FIELDS: [(usize, &str); 12] = [
    (4, "extent 0"),
    (8, "extent 1"),
    (12, "extent 2"),
    (16, "extent 3"),
    (20, "E"),
    (24, "N"),
    (28, "first count"),
    (32, "second count"),
    (36, "first offset"),
    (40, "second offset"),
    (44, "words offset"),
    (48, "length"),
];

/// Every place at which files have to be damaged.
pub fn places() -> Vec<String> {
    let mut places: Vec<String> = (0..52).map(|at| format!("header byte {at}")).collect();
    places.extend(FIELDS.iter().map(|(_, name)| format!("field {name}")));
    for kind in 1..=6 {
        places.push(format!("a number of the first part, kind {kind}"));
        places.push(format!("a byte of the first part, kind {kind}"));
        places.push(format!("a word, kind {kind}"));
        places.push(format!("E among the words, kind {kind}"));
    }
    for kind in 3..=6 {
        places.push(format!("a number of the second part, kind {kind}"));
        places.push(format!("a byte of the second part, kind {kind}"));
    }
    places.extend(["a number", "a byte"].map(|what| format!("{what} of the pointers, kind 6")));
    places.extend(["cut", "longer"].map(String::from));
    places.extend(
        AGREEING
            .iter()
            .map(|name| format!("agreeing counts: {name}")),
    );
    places.extend(POINTERS.iter().map(|name| format!("pointers: {name}")));
    places
}

/// The 4-byte number at an offset.
pub fn field(file: &[u8], at: usize) -> u32 {
    u32::from_le_bytes([file[at], file[at + 1], file[at + 2], file[at + 3]])
}

/// Puts a 4-byte number at an offset.
pub fn set_field(file: &mut [u8], at: usize, value: u32) {
    file[at..at + 4].copy_from_slice(&value.to_le_bytes());
}

/// One damaged or forged file from an accepted one.
pub fn any(file: &[u8], says: &Parsed, random: &mut Random) -> Forged {
    loop {
        let forged = any_of_all(file, says, random);
        if !costly(&forged.1) || random.once_in(64) {
            return forged;
        }
    }
}

/// Whether a file claims so many cells, and allowed ones, that a reader of whole pictures takes long.
fn costly(file: &[u8]) -> bool {
    if file.len() < 52 {
        return false;
    }
    let cells: u128 = [4, 8, 12, 16]
        .iter()
        .map(|&at| u128::from(field(file, at)))
        .product();
    (300_000..=16_777_216).contains(&cells)
}

/// One damaged or forged file, of whatever number of cells.
fn any_of_all(file: &[u8], says: &Parsed, random: &mut Random) -> Forged {
    match random.below(13) {
        0 => header_byte(file, random),
        1 | 2 => header_field(file, says, random),
        3 => cut_or_longer(file, random),
        4 => part_byte(file, says, random),
        5 | 6 => part_number(file, says, random),
        7 => word(file, says, random),
        8 => empty_word(file, says, random),
        9 if pointers::has(says) => pointers::any(file, says, random),
        _ => agreeing::any(file, says, random),
    }
}

/// One byte of the header.
fn header_byte(file: &[u8], random: &mut Random) -> Forged {
    let mut copy = file.to_vec();
    // The kind, the dimension count, the width and the step as often as all other bytes together.
    let at = if random.once_in(2) {
        random.below(4)
    } else {
        random.below(52)
    };
    copy[at] = copy[at].wrapping_add(random.within(1, 255) as u8);
    (format!("header byte {at}"), copy)
}

/// One field of the header.
fn header_field(file: &[u8], says: &Parsed, random: &mut Random) -> Forged {
    let mut copy = file.to_vec();
    let (at, name) = random.one_of(&FIELDS);
    let before = field(file, at);
    let word = random.word();
    let value = random.one_of(&[
        0,
        1,
        before.wrapping_add(1),
        before.wrapping_sub(1),
        before.wrapping_add(4),
        before.wrapping_sub(4),
        before.wrapping_mul(2),
        before.wrapping_add(1 << 29),
        before.wrapping_add(1 << 30),
        before.wrapping_add(1 << 31),
        says.cells() as u32,
        says.cells() as u32 + 1,
        says.stored() as u32,
        65_536,
        16_777_217,
        u32::MAX,
        word,
    ]);
    set_field(&mut copy, at, value);
    (format!("field {name}"), copy)
}

/// Fewer or more bytes; sometimes with the length field agreeing.
fn cut_or_longer(file: &[u8], random: &mut Random) -> Forged {
    let mut copy = file.to_vec();
    let place = if random.once_in(2) {
        let length = random.below(file.len());
        let length = random.one_of(&[
            length,
            0,
            1,
            51,
            52,
            file.len() - 1,
            file.len().saturating_sub(4),
        ]);
        copy.truncate(length);
        "cut"
    } else {
        let more = random.one_of(&[1, 4, 8]);
        copy.resize(file.len() + more, 0);
        "longer"
    };
    if copy.len() >= 52 && random.once_in(3) {
        let length = copy.len() as u32;
        set_field(&mut copy, 48, length);
    }
    (place.to_string(), copy)
}

/// The start, the end and the entry size (of single numbers) of a part that has bytes, or of the pointers, with its name.
fn any_part(
    file: &[u8],
    says: &Parsed,
    random: &mut Random,
) -> Option<(usize, usize, usize, &'static str)> {
    let (second_at, words_at) = (field(file, 40) as usize, says.words_at);
    let small = says.setting.width.max(1) as usize;
    let second_size = if says.setting.kind == 5 { 4 } else { small };
    let second_end = words_at - pointers::length(file, says);
    let first = (52, second_at, 4, "first part");
    let second = (second_at, second_end, second_size, "second part");
    let pointers = (second_end, words_at, 4, "pointers");
    let parts: Vec<_> = [first, second, pointers]
        .into_iter()
        .filter(|part| part.0 < part.1)
        .collect();
    (!parts.is_empty()).then(|| random.one_of(&parts))
}

/// One byte of a part.
fn part_byte(file: &[u8], says: &Parsed, random: &mut Random) -> Forged {
    let Some((start, end, _, name)) = any_part(file, says, random) else {
        return header_byte(file, random);
    };
    let mut copy = file.to_vec();
    let at = random.within(start, end - 1);
    copy[at] = copy[at].wrapping_add(random.within(1, 255) as u8);
    (
        format!("a byte of the {name}, kind {}", says.setting.kind),
        copy,
    )
}

/// A number beside one that stands there or beside another, or far from both.
fn any_number(before: u32, another: u32, cells: u32, random: &mut Random) -> u32 {
    let word = random.word();
    random.one_of(&[
        0,
        before.wrapping_add(1),
        before.wrapping_sub(1),
        another,
        another.wrapping_add(1),
        another.wrapping_sub(1),
        cells,
        cells - 1,
        u32::MAX,
        u32::MAX - 1,
        word,
    ])
}

/// One number of a part, or two.
fn part_number(file: &[u8], says: &Parsed, random: &mut Random) -> Forged {
    let Some((start, end, size, name)) = any_part(file, says, random) else {
        return header_field(file, says, random);
    };
    let mut copy = file.to_vec();
    let count = (end - start) / size;
    let number = |copy: &[u8], index: usize| {
        let at = start + size * index;
        copy[at..at + size]
            .iter()
            .rev()
            .fold(0u32, |sum, &byte| sum << 8 | u32::from(byte))
    };
    let index = random.below(count);
    let other = random.below(count);
    let (before, another) = (number(&copy, index), number(&copy, other));
    let value = any_number(before, another, says.cells() as u32, random);
    let mut put = |index: usize, value: u32| {
        let at = start + size * index;
        copy[at..at + size].copy_from_slice(&value.to_le_bytes()[..size]);
    };
    put(index, value);
    if random.once_in(4) {
        put(other, before);
    }
    (
        format!("a number of the {name}, kind {}", says.setting.kind),
        copy,
    )
}

/// Another word; the file may stay accepted.
fn word(file: &[u8], says: &Parsed, random: &mut Random) -> Forged {
    if says.stored() == 0 {
        return header_byte(file, random);
    }
    let mut copy = file.to_vec();
    let at = random.within(says.words_at, file.len() - 1);
    copy[at] = copy[at].wrapping_add(random.within(1, 255) as u8);
    (format!("a word, kind {}", says.setting.kind), copy)
}

/// The empty word among the stored ones: a word becomes E, or E becomes a word.
fn empty_word(file: &[u8], says: &Parsed, random: &mut Random) -> Forged {
    if says.stored() == 0 {
        return header_field(file, says, random);
    }
    let mut copy = file.to_vec();
    let at = says.words_at + 4 * random.below(says.stored());
    if random.once_in(2) {
        set_field(&mut copy, at, says.picture.empty);
    } else {
        let word = field(file, at);
        set_field(&mut copy, 20, word);
    }
    (
        format!("E among the words, kind {}", says.setting.kind),
        copy,
    )
}
