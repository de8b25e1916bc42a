//! The fields of an accepted file's header.

use crate::{Dimensions, Kind, Setting};

/// The bytes before the first part.
pub(crate) const HEADER_LENGTH: usize = 52;

/// The 4-byte number at an offset, lowest byte first. The offset lies in the header of an accepted file.
fn field(file: &[u8], at: usize) -> u32 {
    u32::from_le_bytes([file[at], file[at + 1], file[at + 2], file[at + 3]])
}

/// The length that a file put out has, as its header says.
pub(crate) fn length(file: &[u8]) -> usize {
    field(file, 48) as usize
}

/// What the header of an accepted file says of picture and setting.
#[derive(Clone, Copy, Debug)]
pub(crate) struct Header {
    pub(crate) setting: Setting,
    pub(crate) dimensions: Dimensions,
    pub(crate) empty: u32,
    pub(crate) stored: u32,
}

impl Header {
    /// The header of an accepted file.
    pub(crate) fn of(file: &[u8]) -> Header {
        let byte = |at: usize| u32::from(file[at]);
        let Some(kind) = Kind::of_number(byte(0)) else {
            panic!("the engine accepted a file of kind {}", byte(0))
        };
        Header {
            setting: Setting::of(kind, byte(2), byte(3)),
            dimensions: Dimensions::of_numbers(byte(1), [4, 8, 12, 16].map(|at| field(file, at))),
            empty: field(file, 20),
            stored: field(file, 24),
        }
    }
}
