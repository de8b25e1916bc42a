//! The folder that is read.

use std::ffi::OsStr;
use std::fs;
use std::path::{Path, PathBuf};

use crate::failure::{reason, Failure};

/// The folder that is read.
#[derive(Debug)]
pub(super) struct Source<'a> {
    /// Its name as it was given.
    pub(super) name: &'a Path,
    /// Its real path.
    pub(super) real: PathBuf,
}

impl<'a> Source<'a> {
    /// The folder of a name.
    pub(super) fn of(name: &'a OsStr) -> Result<Source<'a>, Failure> {
        let failed = |error| Failure::file(name, format!("cannot be read: {}", reason(&error)));
        let real = fs::canonicalize(name).map_err(failed)?;
        let name = Path::new(name);
        Ok(Source { name, real })
    }

    /// What is left of a path that was met in the folder, without the folder.
    pub(super) fn relative<'b>(&self, path: &'b OsStr) -> &'b Path {
        let path = Path::new(path);
        path.strip_prefix(self.name).unwrap_or(path)
    }
}
