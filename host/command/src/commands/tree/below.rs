//! The folder that `-o` names, below which the new files are put.

use std::ffi::OsStr;
use std::fs;
use std::io::ErrorKind;
use std::os::unix::fs::MetadataExt;
use std::path::{Path, PathBuf};

use crate::arguments::{Given, Opt};
use crate::commands::tree::source::Source;
use crate::failure::{reason, Failure};
use crate::output::{Content, Folders, Leftovers, Output};
use crate::shown;

/// The folder that `-o` names. It need not be there.
#[derive(Debug)]
pub(super) struct Below<'a> {
    /// Its name as it was given.
    name: &'a Path,
    /// Its real path.
    real: PathBuf,
    /// The folder that is read.
    source: &'a Source<'a>,
    /// Whether existing files may be replaced.
    force: bool,
}

impl<'a> Below<'a> {
    /// Looks at the folder; one that may not be written is refused before any file is read.
    pub(super) fn look(
        given: &Given,
        name: &'a OsStr,
        source: &'a Source<'a>,
    ) -> Result<Below<'a>, Failure> {
        if name.is_empty() {
            return Err(given.bad_value(&Opt::OUTPUT, "'' names no folder"));
        }
        if name == "-" {
            let message = "the files of a folder do not go to standard output; name a folder";
            return Err(given.bad_value(&Opt::OUTPUT, message));
        }
        let real = real(Path::new(name)).map_err(|wrong| Failure::file(name, wrong))?;
        let below = Below {
            name: Path::new(name),
            real,
            source,
            force: given.has(&Opt::FORCE),
        };
        below.is_outside()?;
        Ok(below)
    }

    /// Refuses the folder that is read, and one inside it, by whatever path.
    fn is_outside(&self) -> Result<(), Failure> {
        let number = |path: &Path| fs::metadata(path).map(|found| (found.dev(), found.ino()));
        let source = number(&self.source.real).ok();
        let is_source = |path: &&Path| source.is_some() && number(path).ok() == source;
        let read = shown::quoted(self.source.name.as_os_str());
        let message = match self.real.ancestors().find(is_source) {
            None => return Ok(()),
            Some(found) if found == self.real => format!(
                "is {read} itself; name another folder, or leave out -o and use --force to replace the files in place"
            ),
            Some(_) => format!("lies inside {read}, whose files are to be put there; name a folder outside it"),
        };
        Err(Failure::file(self.name, message))
    }

    /// Makes the folder if it is not there.
    pub(super) fn make(&self) -> Result<Folders, Failure> {
        let made = Folders::make(&self.real);
        made.map_err(|error| Failure::file(self.name, unmade(&error)))
    }

    /// Where the new file of a path in the folder that is read is put.
    fn target(&self, path: &OsStr) -> PathBuf {
        self.name.join(self.source.relative(path))
    }

    /// Refuses a path whose new file may not be written.
    pub(super) fn is_free(&self, path: &OsStr) -> Result<(), Failure> {
        let target = self.target(path);
        let failed = |message: String| Err(Failure::file(&target, message));
        let mut way = target.ancestors().take_while(|path| *path != self.name);
        if way.any(is_link) {
            let below = shown::quoted(self.name.as_os_str());
            return failed(format!(
                "is not written: a symbolic link leads there, and below {below} none is followed"
            ));
        }
        let real = self.real.join(self.source.relative(path));
        if real.starts_with(&self.source.real) {
            let read = shown::quoted(self.source.name.as_os_str());
            return failed(format!(
                "is not written: it lies inside {read}, which is read"
            ));
        }
        match fs::symlink_metadata(&target) {
            Ok(_) if !self.force => failed("exists; use --force to replace it".to_string()),
            _ => Ok(()),
        }
    }

    /// Puts the new file of a path, and makes the folders on the way to it.
    pub(super) fn put(
        &self,
        path: &OsStr,
        bytes: &[u8],
        leftovers: &mut Leftovers,
    ) -> Result<(), Failure> {
        let target = self.target(path);
        let folder = target.parent().unwrap_or(self.name);
        let _made = Folders::make(folder).map_err(|error| {
            let folder = shown::quoted(folder.as_os_str());
            let why = unmade(&error);
            Failure::file(
                &target,
                format!("cannot be written: its folder {folder} {why}"),
            )
        })?;
        let output = Output::look(target.as_os_str(), self.force)?;
        output.put_among(bytes, Content::Picture, leftovers)
    }
}

/// The real path of a folder. One that is not there is to be made in a folder that is.
fn real(path: &Path) -> Result<PathBuf, String> {
    match fs::canonicalize(path) {
        Ok(real) if real.is_dir() => return Ok(real),
        Ok(_) => return Err("is not a folder; the files of a folder go to a folder".to_string()),
        Err(error) if error.kind() == ErrorKind::NotFound && !is_link(path) => {}
        Err(error) => return Err(unmade(&error)),
    }
    let folder = path
        .parent()
        .filter(|folder| !folder.as_os_str().is_empty());
    let folder = folder.unwrap_or(Path::new("."));
    let real = fs::canonicalize(folder).map_err(|error| {
        let folder = shown::quoted(folder.as_os_str());
        format!("cannot be made: its folder {folder}: {}", reason(&error))
    })?;
    match path.file_name() {
        Some(last) => Ok(real.join(last)),
        None => Err("cannot be made: '..' stands last".to_string()),
    }
}

/// Whether a path is a symbolic link.
pub(super) fn is_link(path: impl AsRef<Path>) -> bool {
    fs::symlink_metadata(path).is_ok_and(|found| found.is_symlink())
}

fn unmade(error: &std::io::Error) -> String {
    format!("cannot be made: {}", reason(error))
}
