//! The files of a folder that a manifest lists.

use std::collections::BTreeMap;
use std::ffi::{OsStr, OsString};
use std::fs;
use std::os::unix::ffi::OsStrExt;
use std::path::{Path, PathBuf};

use crate::commands::manifest::listed::Listed;
use crate::commands::manifest::NAME;
use crate::commands::passed::LINK;
use crate::commands::walk::{Found, Walk};
use crate::output::is_temporary;

/// A name below the folder.
#[derive(Debug)]
pub(super) struct Member {
    /// The folder and the path below it.
    pub(super) path: OsString,
    /// The path below the folder.
    pub(super) name: OsString,
    /// Why it cannot be read, where the walk found so.
    pub(super) unread: Option<String>,
}

/// What is below a folder, in the order of the walk.
#[derive(Debug, Default)]
pub(super) struct Members {
    pub(super) all: Vec<Member>,
    /// What is said of names that are no files.
    pub(super) notes: Vec<(OsString, &'static str)>,
    /// The hidden names that were passed over.
    pub(super) hidden: usize,
}

impl Members {
    /// Goes through a folder, hidden names with `all`. The manifest and its temporary files are left out, except where they are listed.
    pub(super) fn of(
        folder: &OsStr,
        all: bool,
        manifest: &OsStr,
        listed: &BTreeMap<OsString, Listed>,
    ) -> Members {
        let own = Own::of(folder, manifest);
        let walk = Walk::through(&[folder.to_owned()], all);
        let mut members = Members {
            hidden: walk.hidden,
            ..Members::default()
        };
        for found in walk.found {
            let (path, unread) = match found {
                Found::File(path) => (path, None),
                Found::Unreadable(path, why) => (path, Some(format!("cannot be read: {why}"))),
                Found::NoFiles(path) => {
                    members.notes.push((path, "no files"));
                    continue;
                }
                Found::Link(path) => {
                    members.notes.push((path, LINK));
                    continue;
                }
            };
            let name = below(folder, &path);
            if listed.contains_key(&name) || !own.has(&path) {
                members.all.push(Member { path, name, unread });
            }
        }
        members
    }
}

/// The path below a folder of a path that the walk gave.
fn below(folder: &OsStr, path: &OsStr) -> OsString {
    let rest = Path::new(path).strip_prefix(folder);
    rest.map_or(path.to_owned(), |rest| rest.as_os_str().to_owned())
}

/// Whether a path below the folder goes through a hidden name.
pub(super) fn is_hidden(name: &OsStr) -> bool {
    let mut parts = name.as_bytes().split(|&byte| byte == b'/');
    parts.any(|part| part.starts_with(b"."))
}

/// The places of the manifest that is meant and of the folder's own.
struct Own(Vec<PathBuf>);

impl Own {
    fn of(folder: &OsStr, manifest: &OsStr) -> Own {
        let usual = Path::new(folder).join(NAME);
        let given = Some(Path::new(manifest)).filter(|_| manifest != "-");
        Own(given
            .into_iter()
            .chain([&*usual])
            .filter_map(place)
            .collect())
    }

    /// Whether a path is that of a manifest, or of a temporary file of one.
    fn has(&self, path: &OsStr) -> bool {
        let Some(place) = place(Path::new(path)) else {
            return false;
        };
        self.0.iter().any(|own| {
            let beside = own.parent() == place.parent();
            let (name, target) = (place.file_name(), own.file_name());
            let both = name.zip(target).filter(|_| beside);
            *own == place || both.is_some_and(|(name, target)| is_temporary(name, target))
        })
    }
}

/// The one path of a file, links followed; that of the link itself where it leads nowhere.
fn place(path: &Path) -> Option<PathBuf> {
    if let Ok(place) = fs::canonicalize(path) {
        return Some(place);
    }
    let parent = path
        .parent()
        .filter(|parent| !parent.as_os_str().is_empty());
    let parent = fs::canonicalize(parent.unwrap_or(Path::new("."))).ok()?;
    Some(parent.join(path.file_name()?))
}
