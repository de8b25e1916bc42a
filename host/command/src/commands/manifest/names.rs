//! Paths as the lines of `sha256sum` have them.

use std::ffi::OsStr;

use crate::shown;

/// The file of this name stands with its folder: `sha256sum` takes the bare name for standard input.
const STANDARD_INPUT: &[u8] = b"-";
const IN_ITS_FOLDER: &[u8] = b"./-";

/// What is escaped, and by which letter after a backslash.
const ESCAPES: [(u8, u8); 3] = [(b'\\', b'\\'), (b'\n', b'n'), (b'\r', b'r')];

/// A path as a line has it, and whether the line begins with a backslash because the path is escaped.
pub(super) fn written(path: &[u8]) -> (bool, Vec<u8>) {
    if path == STANDARD_INPUT {
        return (false, IN_ITS_FOLDER.to_vec());
    }
    let mut text = Vec::new();
    for &byte in path {
        match ESCAPES.iter().find(|(escaped, _)| *escaped == byte) {
            Some(&(_, letter)) => text.extend([b'\\', letter]),
            None => text.push(byte),
        }
    }
    (text.len() > path.len(), text)
}

/// The path that a line has, or what is wrong with it.
pub(super) fn read(escaped: bool, text: &[u8]) -> Result<Vec<u8>, String> {
    if text.contains(&0) {
        return Err("the path has a zero byte".to_string());
    }
    if text.contains(&b'\r') {
        return Err(
            "a carriage return that is not escaped: lines end in a newline alone".to_string(),
        );
    }
    if text == IN_ITS_FOLDER {
        return Ok(STANDARD_INPUT.to_vec());
    }
    if text == STANDARD_INPUT {
        return Err("the path is '-', which is standard input to sha256sum".to_string());
    }
    let path = if escaped {
        unescaped(text)?
    } else {
        text.to_vec()
    };
    inside(&path).map(|()| path)
}

/// A path without its escapes.
fn unescaped(text: &[u8]) -> Result<Vec<u8>, String> {
    let mut path = Vec::new();
    let mut bytes = text.iter();
    while let Some(&byte) = bytes.next() {
        if byte != b'\\' {
            path.push(byte);
            continue;
        }
        let letter = bytes.next();
        let escape = ESCAPES.iter().find(|(_, known)| Some(known) == letter);
        let Some(&(meant, _)) = escape else {
            return Err(r"a backslash in the path is not of \\, \n or \r".to_string());
        };
        path.push(meant);
    }
    Ok(path)
}

/// Refuses a path that does not stay below the folder, or that another path names too.
fn inside(path: &[u8]) -> Result<(), String> {
    if path.is_empty() {
        return Err("the path is empty".to_string());
    }
    if path.starts_with(b"/") {
        return Err("the path begins with '/': only files below the folder are listed".to_string());
    }
    let bad = |part: &&[u8]| matches!(*part, b"" | b"." | b"..");
    match path.split(|&byte| byte == b'/').find(bad) {
        Some(b"") => Err("the path has an empty component".to_string()),
        Some(part) => {
            let part = shown::quoted(OsStr::new(std::str::from_utf8(part).unwrap_or("")));
            Err(format!("the path has the component {part}"))
        }
        None => Ok(()),
    }
}

#[cfg(test)]
mod tests {
    use super::*;

    #[test]
    fn every_path_is_had_back() {
        let bytes = (1..=255).filter(|&byte| byte != b'/');
        let paths = bytes.map(|byte| vec![b'a', byte, b'n', byte]);
        let further: [&[u8]; 6] = [b"-", b"-c", b"a/-", b"..a/b..", b"a b ", b"#"];
        for path in paths.chain(further.map(<[u8]>::to_vec)) {
            let (escaped, text) = written(&path);
            assert!(!text.contains(&b'\n'), "{path:?}");
            assert_eq!(read(escaped, &text), Ok(path));
        }
    }

    #[test]
    fn paths_out_of_the_folder_are_refused() {
        let wrong: [&[u8]; 16] = [
            b"", b"/", b"/a", b"//a", b"..", b".", b"../a", b"a/..", b"a/../b", b"./a", b"a/./b",
            b"a//b", b"a/", b"-", b"a\0b", b"a\r",
        ];
        for path in wrong {
            assert!(read(false, path).is_err(), "{path:?}");
            assert!(read(true, path).is_err(), "{path:?}");
        }
    }

    #[test]
    fn escapes_are_held_to_their_three() {
        for wrong in [&br"\"[..], br"a\", br"\t", br"\x41", br"\0", br"a\\\"] {
            assert!(read(true, wrong).is_err(), "{wrong:?}");
            assert_eq!(read(false, wrong), Ok(wrong.to_vec()));
        }
        assert_eq!(read(true, br"\\\n\r"), Ok(b"\\\n\r".to_vec()));
    }
}
