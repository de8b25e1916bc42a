//! A folder with a manifest, and a script in the place of sha256sum.

use super::files::{Picture, SETTINGS};
use super::{Folder, Outcome};
use std::fs;
use std::os::unix::fs::PermissionsExt;

/// A folder whose folder `d` has two files and a manifest, and an empty folder `bin`.
pub fn folder() -> Folder {
    let folder = Folder::new();
    folder.folder("d");
    folder.folder("bin");
    folder.write("d/a", &Picture::sample().file(SETTINGS[0]));
    folder.write("d/b", &Picture::sample().file(SETTINGS[4]));
    folder.run("manifest write d").printed("");
    folder
}

/// Puts a script in the place of sha256sum; in it `real` is the program itself.
pub fn fake(folder: &Folder, script: &str) {
    let real = folder.bash("command -v sha256sum").text();
    let script = format!("#!/bin/bash\nreal={real}{script}\n");
    folder.write("bin/sha256sum", script.as_bytes());
    let bits = PermissionsExt::from_mode(0o755);
    fs::set_permissions(folder.path("bin/sha256sum"), bits).expect("bits");
}

/// Runs a call with the folder `bin` before all others of the path.
pub fn with_bin(folder: &Folder, call: &str) -> Outcome {
    folder.bash(&format!(
        "PATH=$PWD/bin:$PATH; exec timeout 60 radar-archive {call}"
    ))
}
