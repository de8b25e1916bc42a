//! Temporary files that runs on a target left behind when they were killed.

use std::collections::HashMap;
use std::ffi::{OsStr, OsString};
use std::fs::{self, File};
use std::os::unix::ffi::OsStrExt;
use std::path::{Path, PathBuf};

use crate::output::lock::{lock, names, opened, Lock};
use crate::output::temporary::{self, ENDING, MARK};

/// The temporary files that stand in folders. Each folder is looked through once, however many files are written there.
#[derive(Debug, Default)]
pub struct Leftovers(HashMap<PathBuf, Vec<OsString>>);

impl Leftovers {
    /// Removes the temporary files of a target whose runs have ended. What cannot be removed is in nobody's way.
    ///
    /// `held` is this run's lock on the target, of which a leftover may be a second name.
    pub(super) fn remove(&mut self, folder: &Path, target: &OsStr, held: Option<&Lock>) {
        if !self.0.contains_key(folder) {
            self.0.insert(folder.to_owned(), temporaries(folder));
        }
        let names = self.0.get(folder).into_iter().flatten();
        for name in names.filter(|name| is_temporary(name, target)) {
            let path = folder.join(name);
            let left = left(&path);
            if left.is_some() || held.is_some_and(|held| held.is_of(&path)) {
                let _ = fs::remove_file(&path);
            }
        }
    }
}

/// The names in a folder that may be those of temporary files.
fn temporaries(folder: &Path) -> Vec<OsString> {
    let Ok(entries) = fs::read_dir(folder) else {
        return Vec::new();
    };
    let names = entries.flatten().map(|entry| entry.file_name());
    names
        .filter(|name| name.as_bytes().ends_with(ENDING.as_bytes()))
        .collect()
}

/// Whether a name is that of a temporary file of this target, of any process.
pub fn is_temporary(name: &OsStr, target: &OsStr) -> bool {
    let text = name.to_string_lossy();
    let numbers = || {
        let (_, end) = text.rsplit_once(MARK)?;
        let numbers = end.strip_suffix(ENDING)?;
        let (process, attempt) = numbers.split_once('-').unwrap_or((numbers, "0"));
        Some((process.parse().ok()?, attempt.parse().ok()?))
    };
    numbers().is_some_and(|(process, attempt)| temporary::name(target, process, attempt) == name)
}

/// The file at a path, locked, where no run has it locked any more: each has its temporary file locked as long as it lives.
fn left(path: &Path) -> Option<File> {
    if !fs::symlink_metadata(path).ok()?.is_file() {
        return None;
    }
    let file = opened(path).ok()?;
    (lock(&file).ok()? && names(path, &file)).then_some(file)
}

#[cfg(test)]
mod tests {
    use super::*;
    use crate::output::scratch::Folder;
    use crate::output::temporary::Temporary;

    #[test]
    fn names_of_this_target_alone() {
        let of_a = |name: &str| is_temporary(OsStr::new(name), OsStr::new("a"));
        assert!(of_a(".a.radar-archive-1.tmp"));
        assert!(of_a(".a.radar-archive-4294967295-99.tmp"));
        let others = [
            "a.radar-archive-1.tmp",
            ".b.radar-archive-1.tmp",
            ".a.radar-archive-.tmp",
            ".a.radar-archive-x.tmp",
            ".a.radar-archive-+1.tmp",
            ".a.radar-archive-01.tmp",
            ".a.radar-archive-1-0.tmp",
            ".a.radar-archive-1-2-3.tmp",
            ".a.radar-archive-1.tmp.bak",
            ".a.b.radar-archive-1.tmp",
        ];
        for other in others {
            assert!(!of_a(other), "{other}");
        }
        let long = "n".repeat(255);
        let cut = temporary::name(OsStr::new(&long), 7, 3);
        assert!(is_temporary(&cut, OsStr::new(&long)));
    }

    #[test]
    fn what_a_living_run_writes_stays() {
        let folder = Folder::new("living");
        let target = OsStr::new("a");
        let temporary = Temporary::create(&folder.0, target, None).unwrap();
        fs::write(folder.0.join(".a.radar-archive-1-7.tmp"), b"left").unwrap();
        std::os::unix::fs::symlink("a", folder.0.join(".a.radar-archive-1-8.tmp")).unwrap();
        Leftovers::default().remove(&folder.0, target, None);
        let name = temporary::name(target, std::process::id(), 0);
        let mut names = folder.names();
        names.sort();
        assert_eq!(names.len(), 2);
        assert!(names.contains(&name));
        drop(temporary);
    }

    #[test]
    fn a_second_name_of_the_target_goes_and_the_target_stays() {
        let folder = Folder::new("second-name");
        let (path, second) = (folder.0.join("a"), ".a.radar-archive-1.tmp");
        fs::write(&path, b"a").unwrap();
        fs::hard_link(&path, folder.0.join(second)).unwrap();
        let held = Lock::take(&path, std::time::Duration::ZERO).unwrap();
        Leftovers::default().remove(&folder.0, OsStr::new("a"), held.as_ref());
        assert_eq!(folder.names(), ["a"]);
        assert_eq!(fs::read(&path).unwrap(), b"a");
    }
}
