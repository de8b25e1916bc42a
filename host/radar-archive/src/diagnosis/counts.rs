//! Number 5: counts, offsets and length, in the order of the signal list.

use alloc::format;
use alloc::string::{String, ToString};

use super::header::Header;
use super::{fault, first_finding, many, Test};
use crate::header::HEADER_LENGTH;
use crate::layout::{part_lengths, pointers, upper_entries};
use crate::{Kind, MOST_CELLS};

/// Tests 5. Numbers 1 to 4 are past.
pub(super) fn counts(file: &[u8], header: &Header) -> Test {
    let cells = header.cells();
    if header.stored > cells {
        // Where all the rest agrees with the stored cells, it is the cells that are too few.
        let agrees = header.stored <= u64::from(MOST_CELLS)
            && first_finding(file, &header.widened()).is_none();
        let byte = if agrees { header.too_small_at() } else { 24 };
        let stored = many(header.stored, "stored cell");
        let cells = many(cells, "cell");
        return fault(byte, format!("the header says {stored} of {cells}"));
    }
    bounded_count(header)?;
    first_count(header)?;
    second_count(header)?;
    offsets(header)?;
    let lent = file.len() as u64;
    if header.length != lent {
        let length = header.length;
        let message = format!("the length in the header is {length}, the file has {lent} bytes");
        return fault(48, message);
    }
    Ok(())
}

/// The count that N only bounds: runs in kinds 1 and 5, jumps in kinds 4 and 6.
fn bounded_count(header: &Header) -> Test {
    let (byte, count, thing) = match header.setting.kind {
        Kind::Runs => (28, header.first, "run"),
        Kind::Jumps | Kind::PointedJumps => (28, header.first, "jump"),
        Kind::PagedRuns => (32, header.second, "run"),
        Kind::Positions | Kind::BaseOffset => return Ok(()),
    };
    if count > header.stored {
        let count = many(count, thing);
        let stored = many(header.stored, "stored cell");
        let message = format!("the header says {count}, more than its {stored}");
        return fault(byte, message);
    }
    Ok(())
}

/// The first count where the layout fixes it.
fn first_count(header: &Header) -> Test {
    let stored = header.stored;
    let step = u64::from(header.setting.step);
    let (given, what) = match header.setting.kind {
        Kind::Positions => (stored, "the number of stored cells".to_string()),
        Kind::BaseOffset => {
            let stored = many(stored, "stored cell");
            let what = format!("the bases of {stored} at step {step}");
            (header.stored.div_ceil(step), what)
        }
        Kind::PagedRuns => {
            let runs = many(header.second, "run");
            let what = format!("the entries above level 0 of {runs} at step {step}");
            (upper_entries(header.second, step), what)
        }
        Kind::Runs | Kind::Jumps | Kind::PointedJumps => return Ok(()),
    };
    if header.first != given {
        let first = header.first;
        let message = format!("the entry count of the first part is {first}, not {given}, {what}");
        return fault(28, message);
    }
    Ok(())
}

/// The second count where the layout fixes it.
fn second_count(header: &Header) -> Test {
    let kind = header.setting.kind;
    let (given, what) = match kind {
        Kind::Runs | Kind::Positions => {
            let number = kind.number();
            (0, format!("since kind {number} has no second part"))
        }
        Kind::BaseOffset | Kind::Jumps | Kind::PointedJumps => {
            (header.stored, "the number of stored cells".to_string())
        }
        Kind::PagedRuns => return Ok(()),
    };
    if header.second != given {
        let second = header.second;
        let message =
            format!("the entry count of the second part is {second}, not {given}, {what}");
        return fault(32, message);
    }
    Ok(())
}

/// What stands before the words in kind 6 and is in no count.
fn behind_pointers(header: &Header) -> String {
    match header.setting.kind {
        Kind::PointedJumps => {
            let pointers = many(pointers(header.setting, header.first), "pointer");
            format!(", behind the differences and {pointers}")
        }
        _ => String::new(),
    }
}

/// The offsets, and the length that header, parts and words have.
fn offsets(header: &Header) -> Test {
    let [first, second] = part_lengths(header.setting, [header.first, header.second]);
    let first_at = HEADER_LENGTH as u64;
    let second_at = first_at + first;
    let words_at = second_at + second;
    for (byte, what, says, given) in [
        (36, "first part", header.first_at, first_at),
        (40, "second part", header.second_at, second_at),
        (44, "stored words", header.words_at, words_at),
    ] {
        if says != given {
            let behind = if byte == 44 {
                behind_pointers(header)
            } else {
                String::new()
            };
            let message = format!("the offset of the {what} is {says}, not {given}{behind}");
            return fault(byte, message);
        }
    }
    let given = words_at + 4 * header.stored;
    if header.length != given {
        let length = header.length;
        let message = format!(
            "the length in the header is {length}; header, parts and words have {given} bytes"
        );
        return fault(48, message);
    }
    Ok(())
}
