//! A folder for the tests of this module.

use std::ffi::OsString;
use std::fs;
use std::path::PathBuf;

/// A new folder, removed when dropped.
pub(super) struct Folder(pub(super) PathBuf);

impl Folder {
    /// A new folder of this name and process.
    pub(super) fn new(name: &str) -> Folder {
        let name = format!("radar-archive-{name}-{}", std::process::id());
        let path = std::env::temp_dir().join(name);
        fs::create_dir(&path).unwrap();
        Folder(path)
    }

    /// The names in it.
    pub(super) fn names(&self) -> Vec<OsString> {
        let entries = fs::read_dir(&self.0).unwrap();
        entries.map(|entry| entry.unwrap().file_name()).collect()
    }
}

impl Drop for Folder {
    fn drop(&mut self) {
        let _ = fs::remove_dir_all(&self.0);
    }
}
