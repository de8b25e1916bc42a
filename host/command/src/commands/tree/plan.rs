//! What is to be done for all that a walk met.

use std::borrow::Cow;
use std::collections::HashMap;
use std::ffi::OsStr;
use std::fs;
use std::path::{Path, PathBuf};

use crate::commands::passed::LINK;
use crate::commands::tree::below::{is_link, Below};
use crate::commands::tree::source::Source;
use crate::commands::walk::{Found, Walk};
use crate::failure::{reason, Failure};
use crate::shown;

/// One thing to be done.
#[derive(Debug)]
pub(super) enum Step<'a> {
    /// A file is read, and the new one put in its place.
    InPlace(&'a OsStr),
    /// A file is read, and the new one put below another folder.
    Into(&'a OsStr, &'a Below<'a>),
    /// Something is told that is no failure.
    Note(&'a OsStr, Cow<'static, str>),
    /// A name that cannot be read.
    Failed(Failure),
}

/// The steps of a run into another folder. Links to files are read like files.
pub(super) fn into<'a>(
    walk: &'a Walk,
    no_files: &'static str,
    below: &'a Below<'a>,
) -> Vec<Step<'a>> {
    steps(walk, no_files, |path| Step::Into(path, below))
}

/// The steps of a run in place. A file is met once: by its own name where it has one there, else by the first link to it.
pub(super) fn in_place<'a>(
    walk: &'a Walk,
    no_files: &'static str,
    source: &Source,
) -> Vec<Step<'a>> {
    let mut known = known(walk, source);
    steps(walk, no_files, |path| match is_link(path) {
        true => linked(path, &source.real, &mut known),
        false => Step::InPlace(path),
    })
}

/// The steps of a walk.
fn steps<'a>(
    walk: &'a Walk,
    no_files: &'static str,
    mut file: impl FnMut(&'a OsStr) -> Step<'a>,
) -> Vec<Step<'a>> {
    let step = |found: &'a Found| match found {
        Found::File(path) => file(path),
        Found::Unreadable(path, why) => {
            Step::Failed(Failure::file(path, format!("cannot be read: {why}")))
        }
        Found::NoFiles(path) => Step::Note(path, no_files.into()),
        Found::Link(path) => Step::Note(path, LINK.into()),
    };
    walk.found.iter().map(step).collect()
}

/// The files that are met, by their real paths.
type Known<'a> = HashMap<PathBuf, &'a OsStr>;

/// The files that are met by their own names. Where there are no links, none has to be known.
fn known<'a>(walk: &'a Walk, source: &Source) -> Known<'a> {
    let file = |found: &'a Found| match found {
        Found::File(path) => Some(path.as_os_str()),
        _ => None,
    };
    let files = walk.found.iter().filter_map(file);
    let (links, own): (Vec<_>, Vec<_>) = files.partition(|path| is_link(path));
    if links.is_empty() {
        return Known::new();
    }
    let real = |path| (source.real.join(source.relative(path)), path);
    own.into_iter().map(real).collect()
}

/// The step for a link to a file.
fn linked<'a>(path: &'a OsStr, folder: &Path, known: &mut Known<'a>) -> Step<'a> {
    let real = match fs::canonicalize(path) {
        Ok(real) => real,
        Err(error) => {
            let message = format!("cannot be read: {}", reason(&error));
            return Step::Failed(Failure::file(path, message));
        }
    };
    if !real.starts_with(folder) {
        let message = "a symbolic link to a file outside the folder, left alone";
        return Step::Note(path, message.into());
    }
    if let Some(other) = known.get(&real) {
        let other = shown::quoted(other);
        let message = format!("a symbolic link to the file of {other}, not taken twice");
        return Step::Note(path, message.into());
    }
    known.insert(real, path);
    Step::InPlace(path)
}
