//! The header of a file, and the rule of number 5.

use crate::picture::{Dimensions, Setting};
use crate::refusal::Refusal;
use crate::runs::upper_count;

/// The bytes before the first part.
pub(crate) const HEADER_LENGTH: usize = 52;

/// The header's numbers as they stand in the file, nothing checked.
pub(crate) struct Header {
    pub(crate) setting: Setting,
    pub(crate) dims: Dimensions,
    pub(crate) empty: u32,
    pub(crate) stored: u32,
    pub(crate) first: u32,
    pub(crate) second: u32,
    pub(crate) first_at: u32,
    pub(crate) second_at: u32,
    pub(crate) words_at: u32,
    pub(crate) length: u32,
}

impl Header {
    /// Reads the header, or refuses with 1.
    pub(crate) fn read(bytes: &[u8]) -> Result<Header, Refusal> {
        if bytes.len() < HEADER_LENGTH {
            return Err(Refusal::Short);
        }
        let byte = |at: usize| u32::from(bytes[at]);
        let field = |at: usize| number_at(bytes, at);
        Ok(Header {
            setting: Setting::new(byte(0), byte(2), byte(3)),
            dims: Dimensions {
                count: byte(1),
                extents: [field(4), field(8), field(12), field(16)],
            },
            empty: field(20),
            stored: field(24),
            first: field(28),
            second: field(32),
            first_at: field(36),
            second_at: field(40),
            words_at: field(44),
            length: field(48),
        })
    }

    /// Tests 5. The setting is allowed, and `cells` is the picture's number of cells.
    pub(crate) fn check_counts(&self, cells: u32, lent: usize) -> Result<(), Refusal> {
        let stored = u64::from(self.stored);
        if self.stored > cells || self.free_count() > self.stored {
            return Err(Refusal::Counts);
        }
        let (first, second) = self.counts_given();
        let (first_size, second_size) = self.entry_sizes();
        let second_at = HEADER_LENGTH as u64 + first_size * first;
        let words_at = second_at + second_size * second + self.pointer_bytes();
        let length = words_at + 4 * stored;
        let agrees = u64::from(self.first) == first
            && u64::from(self.second) == second
            && self.first_at as usize == HEADER_LENGTH
            && u64::from(self.second_at) == second_at
            && u64::from(self.words_at) == words_at
            && u64::from(self.length) == length
            && lent as u64 == length;
        if agrees {
            Ok(())
        } else {
            Err(Refusal::Counts)
        }
    }

    /// The count that N only bounds: runs in kinds 1 and 5, jumps in kinds 4 and 6; 0 in kinds 2
    /// and 3.
    fn free_count(&self) -> u32 {
        match self.setting.kind {
            1 | 4 | 6 => self.first,
            5 => self.second,
            _ => 0,
        }
    }

    /// The counts of both parts that the layout gives, the free count taken as claimed.
    fn counts_given(&self) -> (u64, u64) {
        let stored = u64::from(self.stored);
        let step = u64::from(self.setting.step);
        let free = u64::from(self.free_count());
        match self.setting.kind {
            1 => (free, 0),
            2 => (stored, 0),
            3 => (stored.div_ceil(step), stored),
            4 | 6 => (free, stored),
            _ => (upper_count(free, step), free),
        }
    }

    /// The bytes of an entry of each part.
    fn entry_sizes(&self) -> (u64, u64) {
        match self.setting.kind {
            1 => (8, 0),
            2 => (4, 0),
            3 | 4 | 6 => (4, u64::from(self.setting.width)),
            _ => (8, 8),
        }
    }

    /// The bytes between differences and words: a pointer of 4 for every `step` of the jumps
    /// claimed, the last ones perhaps fewer. Only kind 6 has pointers; no count includes them.
    fn pointer_bytes(&self) -> u64 {
        let step = u64::from(self.setting.step);
        match self.setting.kind {
            6 => 4 * u64::from(self.free_count()).div_ceil(step),
            _ => 0,
        }
    }
}

/// The 4-byte number at an offset, lowest byte first.
pub(crate) fn number_at(bytes: &[u8], at: usize) -> u32 {
    u32::from_le_bytes([bytes[at], bytes[at + 1], bytes[at + 2], bytes[at + 3]])
}
