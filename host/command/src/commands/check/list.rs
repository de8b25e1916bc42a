//! The list of names that `--files0-from` gives.

use std::ffi::{OsStr, OsString};
use std::fs::File;
use std::io::{self, BufRead, BufReader, Read};
use std::os::unix::ffi::OsStringExt;

use crate::failure::{reason, Failure};
use crate::numbers::grouped;

/// The longest name that is read. The system takes none so long, and what is no list of names may have no end.
const LONGEST: u64 = 1 << 20;

/// The names in a file, or in standard input for `-`: each is ended by a zero byte, which the last may lack.
///
/// A name that can be no file's is refused with the number of its entry, before any file is checked.
pub(super) fn names(list: &OsStr) -> Result<Vec<OsString>, Failure> {
    if list == "-" {
        return read(list, io::stdin().lock());
    }
    let file = File::open(list).map_err(|error| unread(list, &error))?;
    read(list, BufReader::new(file))
}

/// Reads the names to the end of the list.
fn read(list: &OsStr, mut source: impl BufRead) -> Result<Vec<OsString>, Failure> {
    let mut names = Vec::new();
    loop {
        let mut name = Vec::new();
        let read = source.by_ref().take(LONGEST).read_until(0, &mut name);
        if read.map_err(|error| unread(list, &error))? == 0 {
            return Ok(names);
        }
        let long = name.len() as u64 == LONGEST;
        if name.last() == Some(&0) {
            name.pop();
        } else if long {
            return Err(wrong(list, names.len(), &endless()));
        }
        let name = OsString::from_vec(name);
        if let Some(why) = unfit(list, &name, &names) {
            return Err(wrong(list, names.len(), why));
        }
        names.push(name);
    }
}

/// Why a name can be no file's, after the names before it.
fn unfit(list: &OsStr, name: &OsStr, before: &[OsString]) -> Option<&'static str> {
    if name.is_empty() {
        return Some("is '', which names no file");
    }
    if name != "-" {
        return None;
    }
    if list == "-" {
        return Some("is '-', standard input, which is the list; './-' is a file of that name");
    }
    let again = before.iter().any(|name| name == "-");
    again.then_some("is '-', standard input, which may be given once only")
}

/// What is said of a name without an end.
fn endless() -> String {
    format!(
        "has {} bytes or more; a zero byte is to end each name, as 'find -print0' puts it",
        grouped(LONGEST)
    )
}

/// The failure that an entry, counted from 0, is none.
fn wrong(list: &OsStr, entry: usize, why: &str) -> Failure {
    let entry = entry + 1;
    Failure::file(list, format!("entry {entry} {why}; nothing was checked"))
}

fn unread(list: &OsStr, error: &io::Error) -> Failure {
    Failure::file(list, format!("cannot be read: {}", reason(error)))
}
