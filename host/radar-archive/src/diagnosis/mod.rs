//! Why a file is refused, in plain English, and at which byte.
//!
//! [`Archive::open`](crate::Archive::open) gives a refused file's [`Fault`]. [`of`] finds it for a number that a call gave, and
//! [`first_fault`] without asking the engine.
//!
//! Where one field of the header is damaged and the rest of the file tells so, the byte is that field's own.

mod base_offset;
mod beyond;
mod body;
mod counts;
mod fault;
mod header;
mod jumps;
mod paged_runs;
mod pointed_jumps;
mod positions;
mod runs;
mod suspect;

pub use fault::Fault;

use alloc::format;
use alloc::string::{String, ToString};

use crate::Refusal;
use header::Header;

/// A clause in plain English, and the offset of the first byte concerned, where one is known.
struct Finding {
    message: String,
    byte: Option<usize>,
}

/// Nothing wrong, or the first fault found.
type Test = Result<(), Finding>;

/// The test of one number of the signal list.
type Rule = fn(&[u8], &Header) -> Test;

/// The tests of numbers 3 to 6. Each is for files that have passed those before it.
const RULES: [(Refusal, Rule); 4] = [
    (Refusal::Setting, header::setting),
    (Refusal::Extent, header::extents),
    (Refusal::Counts, counts::counts),
    (Refusal::Body, body::body),
];

/// What is wrong with a file that the engine refuses with a number 1 to 6.
///
/// Where the tests here find no fault of that number, the message is the signal list's own sentence, without a byte.
///
/// ```
/// use radar_archive::{calls, diagnosis};
///
/// let file = [1, 2, 3];
/// let refusal = calls::check(&file).unwrap_err();
/// let fault = diagnosis::of(&file, refusal);
/// assert_eq!(fault.to_string(), "1 short: it has 3 bytes; a header alone has 52");
/// ```
pub fn of(file: &[u8], refusal: Refusal) -> Fault {
    match first_fault(file) {
        Some(fault) if fault.refusal == refusal => fault,
        _ => Fault {
            refusal,
            message: refusal.sentence().to_string(),
            byte: None,
        },
    }
}

/// The first fault of a file by the rules of the signal list, 1 to 6, without asking the engine; nothing where there is none.
pub fn first_fault(file: &[u8]) -> Option<Fault> {
    let header = match Header::read(file) {
        Ok(header) => header,
        Err(fault) => return Some(fault),
    };
    let (refusal, found) = first_finding(file, &header)?;
    let finding = match suspect::alone(file, &header) {
        Some(suspect) if suspect.byte != found.byte => suspect,
        _ => found,
    };
    Some(Fault::of(refusal, finding))
}

/// The first of 3 to 6 that a file has with this header.
fn first_finding(file: &[u8], header: &Header) -> Option<(Refusal, Finding)> {
    RULES.into_iter().find_map(|(refusal, rule)| {
        let finding = rule(file, header).err()?;
        Some((refusal, finding))
    })
}

/// A fault at a byte.
fn fault(byte: usize, message: String) -> Test {
    let byte = Some(byte);
    Err(Finding { message, byte })
}

/// A number of things: `1 run`, `3 runs`.
fn many(number: u64, thing: &str) -> String {
    let ending = if number == 1 { "" } else { "s" };
    format!("{number} {thing}{ending}")
}

/// The numbers from `low` to `high` in words: `0`, `1 or 2`, `2 to 64`.
fn range(low: u64, high: u64) -> String {
    match high - low {
        0 => format!("{low}"),
        1 => format!("{low} or {high}"),
        _ => format!("{low} to {high}"),
    }
}

/// The number of `size` bytes at an offset, lowest byte first; 0 where the file ends before it.
fn number(file: &[u8], at: usize, size: usize) -> u64 {
    let bytes = file.get(at..).and_then(|rest| rest.get(..size));
    let bytes = bytes.unwrap_or_default().iter().rev();
    bytes.fold(0, |sum, &byte| (sum << 8) | u64::from(byte))
}
