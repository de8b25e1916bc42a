//! File names as they are shown.

use std::ffi::OsStr;
use std::os::unix::ffi::OsStrExt;

/// A name as it is shown, on one line, so that it cannot pass for two names nor move the cursor.
///
/// A backslash is `\\`, newline, carriage return and tab are `\n`, `\r` and `\t`, and each byte of another control character is `\x` with
/// two hexadecimal digits; at a terminal each byte that is not UTF-8 too. All else stands for itself, so the name can be had back.
///
/// ```
/// # use std::ffi::OsStr;
/// # use command::shown;
/// assert_eq!(shown::name(OsStr::new("sea/m2.radar"), false), b"sea/m2.radar");
/// assert_eq!(shown::name(OsStr::new("one\ntwo \u{1b}[2J"), false), br"one\ntwo \x1b[2J");
/// assert_eq!(shown::name(OsStr::new(r"one\ntwo"), false), br"one\\ntwo");
/// ```
pub fn name(name: &OsStr, terminal: bool) -> Vec<u8> {
    let mut text = Vec::new();
    for part in name.as_bytes().utf8_chunks() {
        for character in part.valid().chars() {
            put(&mut text, character);
        }
        if terminal {
            put_digits(&mut text, part.invalid());
        } else {
            text.extend_from_slice(part.invalid());
        }
    }
    text
}

/// A word of the command line, quoted, for a message.
pub fn quoted(word: &OsStr) -> String {
    let text = String::from_utf8_lossy(&name(word, true)).into_owned();
    format!("'{text}'")
}

/// Puts a character, escaped where it is a backslash or a control character.
fn put(text: &mut Vec<u8>, character: char) {
    let mut bytes = [0; 4];
    let bytes = character.encode_utf8(&mut bytes).as_bytes();
    match character {
        '\\' => text.extend_from_slice(br"\\"),
        '\n' => text.extend_from_slice(br"\n"),
        '\r' => text.extend_from_slice(br"\r"),
        '\t' => text.extend_from_slice(br"\t"),
        control if control.is_control() => put_digits(text, bytes),
        _ => text.extend_from_slice(bytes),
    }
}

/// Puts bytes by their hexadecimal digits.
fn put_digits(text: &mut Vec<u8>, bytes: &[u8]) {
    for byte in bytes {
        text.extend_from_slice(format!("\\x{byte:02x}").as_bytes());
    }
}

#[cfg(test)]
mod tests {
    use super::*;

    /// The name that is shown so.
    fn back(mut shown: &[u8]) -> Vec<u8> {
        let mut name = Vec::new();
        while let [first, rest @ ..] = shown {
            let (byte, length) = match (first, rest) {
                (b'\\', [b'\\', ..]) => (b'\\', 2),
                (b'\\', [b'n', ..]) => (b'\n', 2),
                (b'\\', [b'r', ..]) => (b'\r', 2),
                (b'\\', [b't', ..]) => (b'\t', 2),
                (b'\\', [b'x', digits @ ..]) => {
                    let digits = std::str::from_utf8(&digits[..2]).unwrap();
                    (u8::from_str_radix(digits, 16).unwrap(), 4)
                }
                (other, _) => (*other, 1),
            };
            name.push(byte);
            shown = &shown[length..];
        }
        name
    }

    #[test]
    fn every_name_is_one_line_and_can_be_had_back() {
        let bytes = (0..=255).map(|byte| vec![b'a', byte, b'n']);
        let characters = ['\u{9b}', '\u{e9}', '\u{2028}', '\u{1f600}'];
        let characters = characters.map(|character| format!("\\{character}x41").into_bytes());
        for bytes in bytes.chain(characters) {
            for terminal in [false, true] {
                let shown = name(OsStr::from_bytes(&bytes), terminal);
                assert_eq!(back(&shown), bytes, "{terminal}");
                assert!(!shown.iter().any(u8::is_ascii_control), "{shown:?}");
                assert!(!terminal || std::str::from_utf8(&shown).is_ok());
            }
        }
    }
}
