//! What is wrong with one file.

use alloc::string::String;
use core::error::Error;
use core::fmt;

use super::Finding;
use crate::Refusal;

/// What is wrong with one file, or with what was handed to one call: the number of the signal list, a sentence, and the byte.
///
/// ```
/// use radar_archive::{Archive, Dimensions, Picture, Refusal, Setting};
///
/// let mut file = Picture::all_empty(Dimensions::of(&[12])?, 0)?.make(Setting::runs())?;
/// file[24] = 13;
/// let fault = Archive::open(file).unwrap_err();
/// assert_eq!(fault.refusal, Refusal::Counts);
/// assert_eq!(fault.message, "the header says 13 stored cells of 12 cells");
/// assert_eq!(fault.byte, Some(24));
/// assert_eq!(fault.to_string(), "5 counts: the header says 13 stored cells of 12 cells (byte 24)");
/// # Ok::<(), Refusal>(())
/// ```
#[derive(Clone, Debug, PartialEq, Eq, Hash)]
pub struct Fault {
    /// The number of the signal list.
    pub refusal: Refusal,
    /// A clause in plain English, with the values concerned.
    pub message: String,
    /// The offset of the first byte concerned, where one is known.
    pub byte: Option<usize>,
}

impl Fault {
    /// A finding with its number.
    pub(super) fn of(refusal: Refusal, finding: Finding) -> Fault {
        let Finding { message, byte } = finding;
        Fault {
            refusal,
            message,
            byte,
        }
    }
}

impl fmt::Display for Fault {
    fn fmt(&self, f: &mut fmt::Formatter<'_>) -> fmt::Result {
        let (number, word) = (self.refusal.number(), self.refusal.word());
        write!(f, "{number} {word}: {}", self.message)?;
        match self.byte {
            Some(byte) => write!(f, " (byte {byte})"),
            None => Ok(()),
        }
    }
}

impl Error for Fault {}

impl From<Fault> for Refusal {
    /// The number alone.
    fn from(fault: Fault) -> Refusal {
        fault.refusal
    }
}
