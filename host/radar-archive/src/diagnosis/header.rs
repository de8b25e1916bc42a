//! Numbers 1 to 4: the header's length, the kind, the setting, the extents.

use alloc::format;
use alloc::string::{String, ToString};
use alloc::vec::Vec;

use super::{fault, many, number, range, Fault, Test};
use crate::header::HEADER_LENGTH;
use crate::{Kind, Refusal, Setting, MOST_CELLS};

/// The header's numbers as they stand in the file, nothing but the kind checked. They have 32 bits, so no sum or product of two of them
/// wraps.
#[derive(Clone)]
pub(super) struct Header {
    pub(super) setting: Setting,
    pub(super) dimensions: usize,
    pub(super) extents: [u64; 4],
    pub(super) empty: u64,
    pub(super) stored: u64,
    pub(super) first: u64,
    pub(super) second: u64,
    pub(super) first_at: u64,
    pub(super) second_at: u64,
    pub(super) words_at: u64,
    pub(super) length: u64,
}

impl Header {
    /// Reads the header. Tests 1 and 2.
    pub(super) fn read(file: &[u8]) -> Result<Header, Fault> {
        if file.len() < HEADER_LENGTH {
            let has = many(file.len() as u64, "byte");
            return Err(Fault {
                refusal: Refusal::Short,
                message: format!("it has {has}; a header alone has {HEADER_LENGTH}"),
                byte: None,
            });
        }
        let field = |at: usize| number(file, at, 4);
        let [kind, dimensions, width, step] = [file[0], file[1], file[2], file[3]].map(u32::from);
        Ok(Header {
            setting: Setting::of(known(kind)?, width, step),
            dimensions: dimensions as usize,
            extents: [4, 8, 12, 16].map(field),
            empty: field(20),
            stored: field(24),
            first: field(28),
            second: field(32),
            first_at: field(36),
            second_at: field(40),
            words_at: field(44),
            length: field(48),
        })
    }

    /// The number of cells, for extents that have passed number 4.
    pub(super) fn cells(&self) -> u64 {
        let product = |cells: u64, extent: &u64| cells.saturating_mul(*extent);
        self.extents.iter().fold(1, product)
    }

    /// The header with extents that any picture's cells fit in.
    pub(super) fn widened(&self) -> Header {
        Header {
            dimensions: 1,
            extents: [MOST_CELLS.into(), 1, 1, 1],
            ..self.clone()
        }
    }

    /// The width in bytes.
    pub(super) fn width(&self) -> usize {
        self.setting.width as usize
    }

    /// The extents inside a dimension count of 1 to 4.
    fn inside(&self) -> &[u64] {
        &self.extents[..self.dimensions]
    }

    /// The offset of the extent that is taken to be wrong where the picture has too few cells: the smallest, the first of equal ones.
    pub(super) fn too_small_at(&self) -> usize {
        let smallest = (0..self.dimensions).min_by_key(|&index| self.extents[index]);
        extent_at(smallest.unwrap_or(0))
    }

    /// The offset of the extent that is taken to be wrong where the picture has too many cells: the largest, the first of equal ones.
    fn too_large_at(&self) -> usize {
        let largest = (0..self.dimensions)
            .rev()
            .max_by_key(|&index| self.extents[index]);
        extent_at(largest.unwrap_or(0))
    }
}

/// The kind of a number. Tests 2.
fn known(kind: u32) -> Result<Kind, Fault> {
    Kind::of_number(kind).ok_or_else(|| Fault {
        refusal: Refusal::Kind,
        message: format!("kind {kind}; the kinds are 1 to 6"),
        byte: Some(0),
    })
}

/// Tests 3.
pub(super) fn setting(_: &[u8], header: &Header) -> Test {
    let Setting { kind, width, step } = header.setting;
    for (at, name, allowed, value) in [
        (2, "width", kind.widths(), width),
        (3, "step", kind.steps(), step),
    ] {
        if !allowed.contains(&value) {
            let number = kind.number();
            let allowed = range((*allowed.start()).into(), (*allowed.end()).into());
            let message = format!("kind {number} has {name} {allowed}, not {value}");
            return fault(at, message);
        }
    }
    Ok(())
}

/// The offset of an extent.
pub(super) fn extent_at(dimension: usize) -> usize {
    4 + 4 * dimension
}

/// Tests 4: the dimension count, the extents, their product, the extents past the count.
pub(super) fn extents(_: &[u8], header: &Header) -> Test {
    let dimensions = header.dimensions;
    if !(1..=4).contains(&dimensions) {
        return fault(1, format!("{dimensions} dimensions; a picture has 1 to 4"));
    }
    if let Some(dimension) = header.inside().iter().position(|&extent| extent == 0) {
        let message = format!("the extent of dimension {dimension} is 0; an extent is at least 1");
        return fault(extent_at(dimension), message);
    }
    product(header)?;
    let past = &header.extents[dimensions..];
    if let Some(index) = past.iter().position(|&extent| extent != 1) {
        let extent = past[index];
        let message = format!("an extent past the dimension count is {extent}, not 1");
        return fault(extent_at(dimensions + index), message);
    }
    Ok(())
}

/// Tests the product of extents that are at least 1.
fn product(header: &Header) -> Test {
    let extents = header.inside();
    let product = |cells: u64, extent: &u64| cells.saturating_mul(*extent);
    if extents.iter().fold(1, product) <= u64::from(MOST_CELLS) {
        return Ok(());
    }
    let texts: Vec<String> = extents.iter().map(u64::to_string).collect();
    let texts = texts.join(" x ");
    let hold = match extents.len() {
        1 => format!("the extent {texts} holds"),
        _ => format!("the extents {texts} hold"),
    };
    fault(
        header.too_large_at(),
        format!("{hold} more than 16,777,216 cells"),
    )
}
