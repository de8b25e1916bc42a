//! The lister's text.

use crate::check::check;
use std::fmt::Write;

/// The longest input in bytes that the lister reads.
pub const LONGEST_LISTED: usize = 65_536;

/// What the lister prints for these bytes; each line ends with a newline.
pub fn list(bytes: &[u8]) -> String {
    if bytes.len() > LONGEST_LISTED {
        return "too long\n".to_string();
    }
    let parsed = match check(bytes) {
        Ok(parsed) => parsed,
        Err(refusal) => return format!("refused {}\n", refusal.number()),
    };
    let (kind, cells, stored) = (parsed.setting.kind, parsed.cells(), parsed.stored());
    let mut text = format!("{kind} {cells} {stored}\n");
    for (rank, &position) in parsed.positions.iter().enumerate() {
        let word = parsed.picture.words[position as usize];
        // Writing to a string can't fail.
        let _ = writeln!(text, "{rank} {position} {word}");
    }
    text
}
