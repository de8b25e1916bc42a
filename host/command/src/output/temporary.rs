//! The temporary file that an output file is written to first.

use std::ffi::{OsStr, OsString};
use std::fs::{self, File, Metadata, OpenOptions, Permissions};
use std::io::{self, ErrorKind, Read, Seek, SeekFrom, Write};
use std::os::unix::ffi::{OsStrExt, OsStringExt};
use std::os::unix::fs::{fchown, MetadataExt, OpenOptionsExt, PermissionsExt};
use std::path::{Path, PathBuf};

use crate::output::lock;
use crate::signals;

/// The longest name that file systems take.
const LONGEST_NAME: usize = 255;

/// What stands in the name of a temporary file before the number of its process, and at its end.
pub(super) const MARK: &str = ".radar-archive-";
pub(super) const ENDING: &str = ".tmp";

/// Names that are tried, should one be taken by what a killed process left behind.
const TRIED: u32 = 100;

/// What a file keeps of the one that it replaces.
#[derive(Clone, Copy, Debug, PartialEq, Eq)]
pub(super) struct Kept {
    bits: u32,
    owner: u32,
    group: u32,
}

impl Kept {
    /// The permission bits, owner and group of a file.
    pub(super) fn of(found: &Metadata) -> Kept {
        Kept {
            bits: found.permissions().mode() & 0o777,
            owner: found.uid(),
            group: found.gid(),
        }
    }

    /// Gives them to another file. Owner and group stay as they are where this user may not give them away.
    fn give(self, file: &File) -> io::Result<()> {
        let Kept { bits, owner, group } = self;
        let now = Kept::of(&file.metadata()?);
        if (now.owner, now.group) != (owner, group) {
            let _ =
                fchown(file, Some(owner), Some(group)).or_else(|_| fchown(file, None, Some(group)));
        }
        if now.bits != bits {
            file.set_permissions(Permissions::from_mode(bits))?;
        }
        Ok(())
    }
}

/// A temporary file. It is removed when dropped, and by the signals that end the program. It is locked as long as the process lives,
/// so that another knows it from one that was left behind.
#[derive(Debug)]
pub(super) struct Temporary {
    path: PathBuf,
    file: File,
}

impl Temporary {
    /// Makes a new file beside the target. One that replaces a file is never more open than that file.
    pub(super) fn create(
        folder: &Path,
        target: &OsStr,
        kept: Option<Kept>,
    ) -> io::Result<Temporary> {
        signals::catch();
        let mut options = OpenOptions::new();
        options.read(true).write(true).create_new(true);
        options.mode(kept.map_or(0o666, |kept| kept.bits));
        for attempt in 0..TRIED {
            let path = folder.join(name(target, std::process::id(), attempt));
            let held = signals::hold();
            match options.open(&path) {
                Ok(file) if is_ours(&path, &file) => {
                    signals::watch(&path);
                    drop(held);
                    return Ok(Temporary { path, file });
                }
                Ok(_) => {}
                Err(error) if error.kind() == ErrorKind::AlreadyExists => {}
                Err(error) => return Err(error),
            }
        }
        Err(ErrorKind::AlreadyExists.into())
    }

    /// Writes the bytes, makes them last, and reads them back.
    pub(super) fn write(&mut self, bytes: &[u8], kept: Option<Kept>) -> io::Result<()> {
        self.file.write_all(bytes)?;
        if let Some(kept) = kept {
            kept.give(&self.file)?;
        }
        self.file.sync_all()?;
        self.file.seek(SeekFrom::Start(0))?;
        if same(&mut self.file, bytes)? {
            Ok(())
        } else {
            Err(io::Error::other(
                "what is read back is not what was written",
            ))
        }
    }

    /// Puts the file in the place of whatever stands at the path.
    pub(super) fn replace(self, path: &Path) -> io::Result<()> {
        fs::rename(&self.path, path)
    }

    /// Puts the file where nothing stands. Where the file system has no hard links, a last look comes before a rename.
    pub(super) fn place(self, path: &Path) -> io::Result<()> {
        match fs::hard_link(&self.path, path) {
            Ok(()) => Ok(()),
            Err(error) if error.kind() == ErrorKind::AlreadyExists => Err(error),
            Err(_) => match fs::symlink_metadata(path) {
                Ok(_) => Err(ErrorKind::AlreadyExists.into()),
                Err(error) if error.kind() == ErrorKind::NotFound => fs::rename(&self.path, path),
                Err(error) => Err(error),
            },
        }
    }
}

impl Drop for Temporary {
    fn drop(&mut self) {
        // After a rename there is nothing to remove.
        let _ = fs::remove_file(&self.path);
        signals::forget();
    }
}

/// Locks a new file. One that another run took for left behind in the moment before is lost to it. Where the file system has no
/// locks, none takes it.
fn is_ours(path: &Path, file: &File) -> bool {
    lock::lock(file).unwrap_or(true) && lock::names(path, file)
}

/// The name `.TARGET.radar-archive-PID.tmp`, the target's part cut where it would be too long.
pub(super) fn name(target: &OsStr, process: u32, attempt: u32) -> OsString {
    let end = match attempt {
        0 => format!("{MARK}{process}{ENDING}"),
        attempt => format!("{MARK}{process}-{attempt}{ENDING}"),
    };
    let kept = target.as_bytes();
    let kept = &kept[..kept.len().min(LONGEST_NAME - 1 - end.len())];
    OsString::from_vec([b".", kept, end.as_bytes()].concat())
}

/// Whether a file holds these bytes and no more.
fn same(file: &mut File, bytes: &[u8]) -> io::Result<bool> {
    let mut buffer = vec![0; 1 << 18];
    let mut left = bytes;
    loop {
        let read = match file.read(&mut buffer) {
            Ok(read) => read,
            Err(error) if error.kind() == ErrorKind::Interrupted => continue,
            Err(error) => return Err(error),
        };
        if read == 0 {
            return Ok(left.is_empty());
        }
        if left.get(..read) != Some(&buffer[..read]) {
            return Ok(false);
        }
        left = &left[read..];
    }
}

#[cfg(test)]
mod tests {
    use super::*;
    use crate::output::scratch::Folder;

    #[test]
    fn names_are_never_too_long() {
        let process = std::process::id();
        let short = name(OsStr::new("a.radar"), process, 0);
        let wanted = format!(".a.radar.radar-archive-{process}.tmp");
        assert_eq!(short, OsString::from(wanted));
        let long = OsString::from("n".repeat(LONGEST_NAME));
        assert_eq!(name(&long, process, 0).len(), LONGEST_NAME);
        assert_eq!(name(&long, process, TRIED).len(), LONGEST_NAME);
    }

    #[test]
    fn a_file_that_appeared_meanwhile_is_not_replaced() {
        let folder = Folder::new("appeared");
        let target = folder.0.join("a");
        let mut temporary = Temporary::create(&folder.0, OsStr::new("a"), None).unwrap();
        temporary.write(b"new", None).unwrap();
        fs::write(&target, b"other").unwrap();
        let error = temporary.place(&target).unwrap_err();
        assert_eq!(error.kind(), ErrorKind::AlreadyExists);
        assert_eq!(fs::read(&target).unwrap(), b"other");
        assert_eq!(folder.names(), ["a"]);
    }

    #[test]
    fn what_a_killed_process_left_is_not_in_the_way() {
        let folder = Folder::new("left");
        let left = folder.0.join(name(OsStr::new("a"), std::process::id(), 0));
        fs::write(&left, b"left").unwrap();
        let mut temporary = Temporary::create(&folder.0, OsStr::new("a"), None).unwrap();
        temporary.write(b"new", None).unwrap();
        temporary.place(&folder.0.join("a")).unwrap();
        assert_eq!(fs::read(folder.0.join("a")).unwrap(), b"new");
        assert_eq!(fs::read(&left).unwrap(), b"left");
        assert_eq!(folder.names().len(), 2);
    }

    #[test]
    fn what_is_read_back_must_be_what_was_written() {
        let folder = Folder::new("back");
        let path = folder.0.join("a");
        fs::write(&path, b"0123").unwrap();
        let read = |bytes: &[u8]| same(&mut File::open(&path).unwrap(), bytes).unwrap();
        assert!(read(b"0123"));
        assert!(!read(b"0124"));
        assert!(!read(b"012"));
        assert!(!read(b"01234"));
    }
}
