//! The files of a folder and its subfolders.

use std::ffi::{OsStr, OsString};
use std::fs::{self, Metadata};
use std::io;
use std::os::unix::ffi::OsStrExt;
use std::path::{Path, PathBuf};

use crate::arguments::{Given, Opt};
use crate::failure::{reason, Failure};
use crate::glob::Glob;

/// Something met on the way.
#[derive(Debug)]
pub(super) enum Found {
    /// A file to be checked.
    File(OsString),
    /// A name that cannot be read, and why.
    Unreadable(OsString, String),
    /// A folder without files.
    NoFiles(OsString),
    /// A symbolic link to a folder.
    Link(OsString),
}

/// Which names inside folders are taken. A file that is an operand itself always is.
#[derive(Clone, Debug, Default, PartialEq, Eq)]
pub(super) struct Names {
    /// Whether hidden names are.
    all: bool,
    /// The pattern that the names of files match.
    glob: Option<Glob>,
}

impl Names {
    /// The names that `--all` and `--name` give.
    pub(super) fn of(given: &Given) -> Result<Names, Failure> {
        let glob = given.value(&Opt::NAME).map(Glob::of).transpose();
        Ok(Names {
            all: given.has(&Opt::ALL),
            glob: glob.map_err(|wrong| given.bad_value(&Opt::NAME, &wrong))?,
        })
    }

    /// Whether a file of this path is taken.
    fn take(&self, path: &Path) -> bool {
        let last = path.file_name().unwrap_or_default();
        self.glob.as_ref().is_none_or(|glob| glob.matches(last))
    }
}

impl From<bool> for Names {
    /// All names, or those that are not hidden.
    fn from(all: bool) -> Names {
        Names { all, glob: None }
    }
}

/// All that is met, in order, and how many names were passed over.
#[derive(Debug, Default)]
pub(super) struct Walk {
    pub(super) found: Vec<Found>,
    /// The hidden names, whatever they are.
    pub(super) hidden: usize,
    /// The files whose names do not match.
    pub(super) unmatched: usize,
    files: usize,
    names: Names,
}

impl Walk {
    /// Goes through the operands, and takes these names; `true` stands for all, `false` for those that are not hidden.
    pub(super) fn through(operands: &[OsString], names: impl Into<Names>) -> Walk {
        let mut walk = Walk {
            names: names.into(),
            ..Walk::default()
        };
        for operand in operands {
            if operand != "-" && Path::new(operand).is_dir() {
                walk.folder(operand);
            } else {
                walk.found.push(Found::File(operand.clone()));
            }
        }
        walk
    }

    /// Goes through a folder and its subfolders, names in byte order.
    fn folder(&mut self, folder: &OsStr) {
        let before = self.files;
        let mut left = vec![PathBuf::from(folder)];
        while let Some(path) = left.pop() {
            let names = if path == Path::new(folder) {
                self.names(&path)
            } else {
                self.entry(&path)
            };
            left.extend(names.into_iter().rev());
        }
        if self.files == before {
            self.found.push(Found::NoFiles(folder.to_owned()));
        }
    }

    /// Takes a name inside a folder; gives the names inside it where it is a folder itself.
    fn entry(&mut self, path: &Path) -> Vec<PathBuf> {
        let name = path.as_os_str().to_owned();
        let kind = match fs::symlink_metadata(path) {
            Ok(found) => found.file_type(),
            Err(error) => return self.unreadable(name, &error),
        };
        if kind.is_dir() {
            return self.names(path);
        }
        let followed = fs::metadata(path);
        if followed.as_ref().is_ok_and(Metadata::is_dir) {
            self.found.push(Found::Link(name));
            return Vec::new();
        }
        if !self.names.take(path) {
            self.unmatched += 1;
            return Vec::new();
        }
        let found = match followed {
            Ok(found) => found,
            Err(error) => return self.unreadable(name, &error),
        };
        self.files += 1;
        self.found.push(if found.is_file() {
            Found::File(name)
        } else {
            Found::Unreadable(
                name,
                "it is a pipe, socket or device, not a file".to_string(),
            )
        });
        Vec::new()
    }

    /// The names inside a folder in byte order, hidden ones passed over and counted.
    fn names(&mut self, folder: &Path) -> Vec<PathBuf> {
        let entries: io::Result<Vec<OsString>> = fs::read_dir(folder)
            .and_then(|entries| entries.map(|entry| Ok(entry?.file_name())).collect());
        let mut names = match entries {
            Ok(names) => names,
            Err(error) => return self.unreadable(folder.as_os_str().to_owned(), &error),
        };
        if !self.names.all {
            let met = names.len();
            names.retain(|name| !name.as_bytes().starts_with(b"."));
            self.hidden += met - names.len();
        }
        names.sort_by(|a, b| a.as_bytes().cmp(b.as_bytes()));
        names.into_iter().map(|name| folder.join(name)).collect()
    }

    fn unreadable(&mut self, name: OsString, error: &io::Error) -> Vec<PathBuf> {
        self.files += 1;
        self.found.push(Found::Unreadable(name, reason(error)));
        Vec::new()
    }
}
