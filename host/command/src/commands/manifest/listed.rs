//! A manifest read strictly.

use std::collections::BTreeMap;
use std::ffi::{OsStr, OsString};
use std::os::unix::ffi::OsStringExt;

use radar_archive::{Refusal, Setting};

use crate::commands::manifest::names;
use crate::commands::manifest::text::{
    is_manifest, BEGIN, LONGEST, PICTURE, REFUSED, SETTING, VERSION,
};
use crate::failure::Failure;
use crate::input::{contents, Contents};
use crate::numbers::grouped;
use crate::sha256::Sum;

/// What a manifest says that a file was to the engine.
#[derive(Clone, Copy, Debug, PartialEq, Eq)]
pub(super) enum Was {
    /// A picture of this identity.
    Picture(Sum),
    /// Refused.
    Refused(Refusal),
}

/// What a manifest says of a file.
#[derive(Clone, Copy, Debug, PartialEq, Eq)]
pub(super) struct Listed {
    /// The number of its line.
    line: usize,
    /// The sum of its bytes.
    pub(super) sum: Sum,
    /// What it was, where that is said.
    pub(super) was: Option<Was>,
    /// Its setting, where that is said.
    pub(super) setting: Option<Setting>,
}

/// Reads a manifest whole, and holds every line to the format, before anything else is read.
pub(super) fn read(name: &OsStr) -> Result<BTreeMap<OsString, Listed>, Failure> {
    let bytes = match contents(name, LONGEST)? {
        Contents::Whole(bytes) => bytes,
        Contents::Longer { length, .. } => {
            let most = grouped(LONGEST);
            let message = format!("is no manifest: it has {length} bytes, more than {most}");
            return Err(Failure::file(name, message));
        }
    };
    parsed(&bytes).map_err(|(line, wrong)| {
        Failure::file(
            name,
            format!("is not right as a manifest: line {line}: {wrong}"),
        )
    })
}

/// The files of a manifest's text, or the number of the first wrong line and what is wrong with it.
fn parsed(bytes: &[u8]) -> Result<BTreeMap<OsString, Listed>, (usize, String)> {
    let mut reader = Reader::default();
    let Some(text) = bytes.strip_suffix(b"\n") else {
        return Err(cut_off(bytes));
    };
    for (line, number) in text.split(|&byte| byte == b'\n').zip(1..) {
        let read = match number {
            1 => first(line),
            _ => reader.line(number, line),
        };
        read.map_err(|wrong| (number, wrong))?;
        reader.lines = number;
    }
    reader.end()
}

/// What is said of a text that does not end in a newline.
fn cut_off(bytes: &[u8]) -> (usize, String) {
    if !is_manifest(bytes) {
        return (1, format!("it is not '{BEGIN}{VERSION}'"));
    }
    let lines = bytes.split(|&byte| byte == b'\n').count();
    (
        lines,
        "the file is cut off: its last line has no newline".to_string(),
    )
}

/// Holds the first line to its text.
fn first(line: &[u8]) -> Result<(), String> {
    let version = line.strip_prefix(BEGIN.as_bytes());
    match version {
        Some(version) if version == VERSION.as_bytes() => Ok(()),
        Some(version) if version.ends_with(b"\r") => Err(CARRIAGE_RETURN.to_string()),
        Some(_) => Err(format!(
            "another version of manifests; version {VERSION} is known"
        )),
        None => Err(format!("it is not '{BEGIN}{VERSION}'")),
    }
}

/// What is said of lines as other systems end them.
const CARRIAGE_RETURN: &str = "the line ends in a carriage return; lines end in a newline alone";

/// What is said of a line that is none of a file.
const NO_LINE: &str = "it is not 64 hexadecimal digits, two spaces (or a space and *) and a path";

/// What was read so far.
#[derive(Debug, Default)]
struct Reader {
    files: BTreeMap<OsString, Listed>,
    lines: usize,
    /// What is said of the file of the next line.
    was: Option<Was>,
    setting: Option<Setting>,
}

impl Reader {
    /// Reads a line after the first.
    fn line(&mut self, number: usize, line: &[u8]) -> Result<(), String> {
        if let Some(rest) = line.strip_prefix(PICTURE.as_bytes()) {
            let sum = Sum::of_digits(rest);
            let was = sum.map(Was::Picture);
            return once(
                &mut self.was,
                was,
                "64 hexadecimal digits after '# picture '",
            );
        }
        if let Some(rest) = line.strip_prefix(REFUSED.as_bytes()) {
            let was = refusal(rest).map(Was::Refused);
            return once(
                &mut self.was,
                was,
                "a number 1 to 6 and its word after '# refused '",
            );
        }
        if let Some(rest) = line.strip_prefix(SETTING.as_bytes()) {
            let wanted = "kind, width and step, as a file has them, after '# setting '";
            return once(&mut self.setting, setting(rest), wanted);
        }
        match line.first() {
            Some(b'#') => Ok(()),
            None => Err("it is empty".to_string()),
            Some(_) => self.file(number, line),
        }
    }

    /// Reads the line of a file.
    fn file(&mut self, number: usize, line: &[u8]) -> Result<(), String> {
        let (escaped, line) = match line.strip_prefix(b"\\") {
            Some(rest) => (true, rest),
            None => (false, line),
        };
        let (digits, rest) = line.split_at(line.len().min(64));
        let path = rest.strip_prefix(b"  ").or(rest.strip_prefix(b" *"));
        let (Some(sum), Some(path)) = (Sum::of_digits(digits), path) else {
            return Err(NO_LINE.to_string());
        };
        let path = OsString::from_vec(names::read(escaped, path)?);
        let listed = Listed {
            line: number,
            sum,
            was: self.was.take(),
            setting: self.setting.take(),
        };
        match self.files.insert(path, listed) {
            Some(other) => Err(format!("the path stands in line {} already", other.line)),
            None => Ok(()),
        }
    }

    /// All files, if nothing is said of one that does not follow.
    fn end(self) -> Result<BTreeMap<OsString, Listed>, (usize, String)> {
        if self.was.is_some() || self.setting.is_some() {
            let message = "the line of the file that is meant does not follow";
            return Err((self.lines, message.to_string()));
        }
        Ok(self.files)
    }
}

/// Takes what is said of the next file, if it is right and the first of its sort.
fn once<T>(place: &mut Option<T>, said: Option<T>, wanted: &str) -> Result<(), String> {
    match (&place, said) {
        (_, None) => Err(format!("there are not {wanted}")),
        (Some(_), _) => Err("a second such line before the line of a file".to_string()),
        (None, said) => {
            *place = said;
            Ok(())
        }
    }
}

/// A refusal of a file as number and word, as in `5 counts`.
fn refusal(text: &[u8]) -> Option<Refusal> {
    let all = Refusal::ALL.into_iter().take(6);
    let written = |refusal: &Refusal| format!("{} {}", refusal.number(), refusal.word());
    all.into_iter()
        .find(|refusal| written(refusal).as_bytes() == text)
}

/// A setting as its three numbers, as in `3 1 4`.
fn setting(text: &[u8]) -> Option<Setting> {
    let text = std::str::from_utf8(text).ok()?;
    let numbers: Vec<u32> = text
        .split(' ')
        .map_while(|part| part.parse().ok())
        .collect();
    let numbers: [u32; 3] = numbers.try_into().ok()?;
    let [kind, width, step] = numbers;
    let setting = Setting::try_from(numbers).ok()?;
    (setting.is_allowed() && text == format!("{kind} {width} {step}")).then_some(setting)
}
