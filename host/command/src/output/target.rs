//! The file that `-o` names.

use std::ffi::{OsStr, OsString};
use std::fs::{self, FileType};
use std::io::{self, ErrorKind};
use std::os::unix::ffi::OsStrExt;
use std::os::unix::fs::FileTypeExt;
use std::path::{Path, PathBuf};
use std::time::Duration;

use crate::failure::{reason, Failure};
use crate::output::leftover::Leftovers;
use crate::output::lock::{Lock, PATIENCE};
use crate::output::temporary::{Kept, Temporary};
use crate::shown;

/// The most symbolic links that are followed.
const MOST_LINKS: usize = 40;

/// A file to be put in place.
#[derive(Debug)]
pub(super) struct Target {
    /// Its name as it was given.
    pub(super) name: OsString,
    /// Its path, symbolic links followed.
    path: PathBuf,
    /// Whether an existing file may be replaced.
    force: bool,
    /// What the file that stands there hands on.
    kept: Option<Kept>,
    /// Keeps other runs from replacing that file, so that what this one reads of it is still there when it is replaced.
    lock: Option<Lock>,
}

impl Target {
    /// Looks at what stands at a target; what may not be replaced is refused.
    pub(super) fn look(name: &OsStr, force: bool) -> Result<Target, Failure> {
        let failed = |message: &str| Failure::file(name, message);
        if let Ok(found) = fs::metadata(name) {
            if !found.is_file() {
                return Err(failed(&not_a_file(found.file_type())));
            }
        }
        let path = followed(Path::new(name)).map_err(|error| failed(&unwritable(&error)))?;
        let kept = match fs::metadata(&path) {
            Ok(_) if !force => return Err(failed("exists; use --force to replace it")),
            Ok(found) => Some(Kept::of(&found)),
            Err(error) if error.kind() == ErrorKind::NotFound => None,
            Err(error) => return Err(failed(&unwritable(&error))),
        };
        let target = Target {
            name: name.to_owned(),
            path,
            force,
            kept,
            lock: None,
        };
        target.names_a_file()?;
        Ok(target)
    }

    /// Locks the file that is to be replaced, if there is one and it is not locked yet, and sees what it hands on.
    pub(super) fn lock(&mut self, patience: Duration) -> Result<(), Failure> {
        if self.force && self.lock.is_none() {
            let taken = Lock::take(&self.path, patience);
            self.lock = taken.map_err(|error| self.failed(unlocked(&error, patience)))?;
            let found = fs::metadata(&self.path);
            self.kept = found.ok().map(|found| Kept::of(&found));
        }
        Ok(())
    }

    /// Refuses a name that can only be a folder's, and one in a folder that is not there.
    fn names_a_file(&self) -> Result<(), Failure> {
        let last = self
            .path
            .as_os_str()
            .as_bytes()
            .rsplit(|&b| b == b'/')
            .next();
        if matches!(last, None | Some(b"" | b"." | b"..")) {
            return Err(self.failed("cannot be written: this is the name of a folder".to_string()));
        }
        match fs::metadata(self.folder()) {
            Ok(found) if found.is_dir() => Ok(()),
            Ok(_) => Err(self.failed(format!(
                "cannot be written: {} is not a folder",
                shown::quoted(self.folder().as_os_str())
            ))),
            Err(error) => Err(self.failed(format!(
                "cannot be written: its folder {}: {}",
                shown::quoted(self.folder().as_os_str()),
                reason(&error)
            ))),
        }
    }

    /// The folder that the target stands in.
    fn folder(&self) -> &Path {
        folder_of(&self.path)
    }

    fn failed(&self, message: String) -> Failure {
        Failure::file(&self.name, message)
    }

    /// Writes the bytes to a temporary file beside the target, and puts it in the target's place.
    pub(super) fn put(mut self, bytes: &[u8], leftovers: &mut Leftovers) -> Result<(), Failure> {
        self.lock(PATIENCE)?;
        let name = self.path.file_name().unwrap_or(OsStr::new(""));
        leftovers.remove(self.folder(), name, self.lock.as_ref());
        let mut temporary = Temporary::create(self.folder(), name, self.kept).map_err(|error| {
            let folder = shown::quoted(self.folder().as_os_str());
            self.failed(format!(
                "cannot be written: no file can be made in its folder {folder}: {}",
                reason(&error)
            ))
        })?;
        let written = temporary.write(bytes, self.kept);
        written.map_err(|error| self.failed(unwritten(&error, bytes.len())))?;
        let placed = if self.force {
            temporary.replace(&self.path)
        } else {
            temporary.place(&self.path)
        };
        placed.map_err(|error| match error.kind() {
            ErrorKind::AlreadyExists => {
                self.failed("exists since a moment ago; use --force to replace it".to_string())
            }
            _ => self.failed(unwritable(&error)),
        })?;
        synced(self.folder()).map_err(|error| {
            let why = reason(&error);
            self.failed(format!(
                "is written, but its folder cannot be synced: {why}"
            ))
        })
    }
}

/// The folder that a path's last name stands in.
pub(super) fn folder_of(path: &Path) -> &Path {
    match path.parent() {
        Some(parent) if !parent.as_os_str().is_empty() => parent,
        _ => Path::new("."),
    }
}

/// The path that a symbolic link leads to, also where nothing stands there yet.
fn followed(path: &Path) -> io::Result<PathBuf> {
    let mut path = path.to_owned();
    for _ in 0..MOST_LINKS {
        match fs::symlink_metadata(&path) {
            Ok(found) if found.is_symlink() => {
                let to = fs::read_link(&path)?;
                path = path.parent().unwrap_or(Path::new("")).join(to);
            }
            Ok(_) => return Ok(path),
            Err(error) if error.kind() == ErrorKind::NotFound => return Ok(path),
            Err(error) => return Err(error),
        }
    }
    Err(io::Error::other("too many symbolic links"))
}

/// What is said of a target that is not a regular file.
fn not_a_file(found: FileType) -> String {
    let what = if found.is_dir() {
        "a folder"
    } else if found.is_fifo() {
        "a pipe"
    } else if found.is_socket() {
        "a socket"
    } else {
        "a device"
    };
    format!("is {what}, not a file; name a file, or use '-o -' for standard output")
}

fn unwritable(error: &io::Error) -> String {
    format!("cannot be written: {}", reason(error))
}

/// What is said of a lock that could not be had.
fn unlocked(error: &io::Error, patience: Duration) -> String {
    match error.kind() {
        ErrorKind::TimedOut => format!(
            "is being replaced by another run, which has not ended after {} seconds; nothing was changed: try again when it has",
            patience.as_secs()
        ),
        _ => format!(
            "cannot be locked: {}; nothing was changed: write a new file and move it there",
            reason(error)
        ),
    }
}

/// What is said of bytes that could not be written.
fn unwritten(error: &io::Error, length: usize) -> String {
    let why = reason(error);
    match error.kind() {
        ErrorKind::StorageFull | ErrorKind::FileTooLarge | ErrorKind::QuotaExceeded => {
            format!("cannot be written: {why}; {length} bytes are to be written, and nothing was changed")
        }
        _ => format!("cannot be written: {why}; nothing was changed"),
    }
}

/// Makes a folder's entries last. A folder that may not be read, or a file system that has no such call, is left as it is.
pub(super) fn synced(folder: &Path) -> io::Result<()> {
    let opened = match fs::File::open(folder) {
        Ok(opened) => opened,
        Err(error) if error.kind() == ErrorKind::PermissionDenied => return Ok(()),
        Err(error) => return Err(error),
    };
    match opened.sync_all() {
        Err(error) if error.kind() != ErrorKind::InvalidInput => Err(error),
        _ => Ok(()),
    }
}

#[cfg(test)]
mod tests {
    use super::*;
    use crate::output::scratch::Folder;

    #[test]
    fn a_lock_that_is_not_to_be_had_is_said() {
        let folder = Folder::new("waiting");
        let path = folder.0.join("a");
        fs::write(&path, b"old").unwrap();
        let other = Lock::take(&path, PATIENCE).unwrap();
        let mut target = Target::look(path.as_os_str(), true).unwrap();
        let failure = target.lock(Duration::ZERO).unwrap_err();
        let message = "is being replaced by another run, which has not ended after 0 seconds; \
                       nothing was changed: try again when it has";
        assert_eq!(failure, Failure::file(&path, message));
        drop(other);
        target.put(b"new", &mut Leftovers::default()).unwrap();
        assert_eq!(fs::read(&path).unwrap(), b"new");
        assert_eq!(folder.names(), ["a"]);
    }
}
