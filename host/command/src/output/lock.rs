//! Locks by which runs of the program keep out of each other's way. The system gives a lock back when its process ends, however it ends.

use std::ffi::c_int;
use std::fs::{self, File, OpenOptions};
use std::io::{self, ErrorKind};
use std::os::fd::AsRawFd;
use std::os::unix::fs::MetadataExt;
use std::path::Path;
use std::thread::sleep;
use std::time::{Duration, Instant};

/// How long a lock is waited for.
pub(super) const PATIENCE: Duration = Duration::from_secs(30);

/// The pause between two tries.
const PAUSE: Duration = Duration::from_millis(5);

/// For one process alone (2), and without waiting (4).
const ALONE_AT_ONCE: c_int = 2 | 4;

extern "C" {
    fn flock(descriptor: c_int, operation: c_int) -> c_int;
}

/// Locks an open file until it is closed; false where another has it locked.
pub(super) fn lock(file: &File) -> io::Result<bool> {
    loop {
        // SAFETY: the call takes two plain numbers, and the file is open.
        if unsafe { flock(file.as_raw_fd(), ALONE_AT_ONCE) } == 0 {
            return Ok(true);
        }
        let error = io::Error::last_os_error();
        match error.kind() {
            ErrorKind::Interrupted => {}
            ErrorKind::WouldBlock => return Ok(false),
            _ => return Err(error),
        }
    }
}

/// Whether a path, links not followed, names an open file.
pub(super) fn names(path: &Path, file: &File) -> bool {
    match (fs::symlink_metadata(path), file.metadata()) {
        (Ok(named), Ok(open)) => (named.dev(), named.ino()) == (open.dev(), open.ino()),
        _ => false,
    }
}

/// A target that no other run replaces while this lives.
#[derive(Debug)]
pub(super) struct Lock(File);

impl Lock {
    /// Locks the file at a path. Where another run replaced it in the meantime, the new one is locked.
    ///
    /// There is nothing to lock where no file stands, and none is needed on a file that this user may not open: it is not read.
    pub(super) fn take(path: &Path, patience: Duration) -> io::Result<Option<Lock>> {
        let begin = Instant::now();
        loop {
            let file = match opened(path) {
                Err(e) if matches!(e.kind(), ErrorKind::NotFound | ErrorKind::PermissionDenied) => {
                    return Ok(None);
                }
                opened => opened?,
            };
            while !lock(&file)? {
                if begin.elapsed() >= patience {
                    return Err(ErrorKind::TimedOut.into());
                }
                sleep(PAUSE);
            }
            if names(path, &file) {
                return Ok(Some(Lock(file)));
            }
        }
    }

    /// Whether a path names the locked file.
    pub(super) fn is_of(&self, path: &Path) -> bool {
        names(path, &self.0)
    }
}

/// Opens a file to be locked. Some network file systems lock only what is open for writing.
pub(super) fn opened(path: &Path) -> io::Result<File> {
    let both = OpenOptions::new().read(true).write(true).open(path);
    both.or_else(|_| File::open(path))
}

#[cfg(test)]
mod tests {
    use super::*;
    use crate::output::scratch::Folder;

    const SHORT: Duration = Duration::from_millis(50);

    #[test]
    fn a_second_lock_is_not_to_be_had() {
        let folder = Folder::new("locked");
        let path = folder.0.join("a");
        fs::write(&path, b"a").unwrap();
        let first = Lock::take(&path, SHORT).unwrap();
        let error = Lock::take(&path, SHORT).unwrap_err();
        assert_eq!(error.kind(), ErrorKind::TimedOut);
        drop(first);
        assert!(Lock::take(&path, SHORT).unwrap().is_some());
    }

    #[test]
    fn a_replaced_file_is_locked_anew() {
        let folder = Folder::new("anew");
        let (path, new) = (folder.0.join("a"), folder.0.join("b"));
        fs::write(&path, b"a").unwrap();
        fs::write(&new, b"b").unwrap();
        let first = Lock::take(&path, SHORT).unwrap();
        let second = std::thread::scope(|scope| {
            let second = scope.spawn(|| Lock::take(&path, PATIENCE).unwrap().unwrap());
            sleep(SHORT);
            fs::rename(&new, &path).unwrap();
            drop(first);
            second.join().unwrap()
        });
        assert!(second.is_of(&path));
    }

    #[test]
    fn there_is_nothing_to_lock() {
        let folder = Folder::new("nothing");
        assert!(Lock::take(&folder.0.join("a"), SHORT).unwrap().is_none());
    }
}
