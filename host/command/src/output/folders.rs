//! Folders that are made for output files.

use std::fs;
use std::io::{self, ErrorKind};
use std::path::{Path, PathBuf};

use crate::output::target::{folder_of, synced};

/// Folders that were made. Those that are empty are removed when this is dropped.
#[derive(Debug, Default)]
pub struct Folders(Vec<PathBuf>);

impl Folders {
    /// Makes a folder, and those above it that are not there. What was made is removed where one cannot be made.
    pub fn make(path: &Path) -> io::Result<Folders> {
        let mut made = Folders::default();
        made.add(path)?;
        Ok(made)
    }

    /// Makes a folder, and those above it. One that another run makes at the same time is there.
    fn add(&mut self, path: &Path) -> io::Result<()> {
        let folder = folder_of(path);
        let mut made = fs::create_dir(path);
        let kind = made.as_ref().err().map(io::Error::kind);
        if kind == Some(ErrorKind::NotFound) && folder != path {
            self.add(folder)?;
            made = fs::create_dir(path);
        }
        match made {
            Ok(()) => {
                self.0.push(path.to_owned());
                synced(folder)
            }
            Err(error) if error.kind() == ErrorKind::AlreadyExists && path.is_dir() => Ok(()),
            Err(error) => Err(error),
        }
    }
}

impl Drop for Folders {
    fn drop(&mut self) {
        for path in self.0.iter().rev() {
            // One that is not empty stays.
            let _ = fs::remove_dir(path);
        }
    }
}

#[cfg(test)]
mod tests {
    use super::*;
    use crate::output::scratch::Folder;

    #[test]
    fn what_stays_empty_goes_again() {
        let folder = Folder::new("empty");
        drop(Folders::make(&folder.0.join("a/b/c")).unwrap());
        assert!(folder.names().is_empty());
        fs::create_dir(folder.0.join("a")).unwrap();
        let made = Folders::make(&folder.0.join("a/b/c")).unwrap();
        fs::write(folder.0.join("a/b/file"), b"").unwrap();
        drop(made);
        assert!(folder.0.join("a/b/file").exists());
        assert!(!folder.0.join("a/b/c").exists());
        drop(Folders::make(&folder.0.join("a")).unwrap());
        assert!(folder.0.join("a").exists());
    }

    #[test]
    fn a_file_in_the_way_leaves_nothing_behind() {
        let folder = Folder::new("way");
        fs::write(folder.0.join("file"), b"").unwrap();
        assert!(Folders::make(&folder.0.join("file")).is_err());
        assert!(Folders::make(&folder.0.join("file/a/b")).is_err());
        let long = format!("a/b/{}", "n".repeat(300));
        assert!(Folders::make(&folder.0.join(long)).is_err());
        assert_eq!(folder.names(), ["file"]);
    }
}
