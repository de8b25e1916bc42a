//! Folders of picture files.

use super::files::{Picture, SETTINGS};
use super::{Folder, Outcome};

/// The shortest file of the sample.
pub fn best() -> Vec<u8> {
    Picture::sample().file([3, 1, 4])
}

/// A folder `d` with the sample in each kind, two subfolders, and one file that is the shortest already.
pub fn folder() -> Folder {
    let folder = Folder::new();
    folder.folder("d/sub/deep");
    for (index, setting) in SETTINGS.iter().enumerate() {
        let file = Picture::sample().file(*setting);
        folder.write(format!("d/m{}.radar", index + 1), &file);
    }
    folder.write("d/sub/deep/x", &Picture::sample().file(SETTINGS[4]));
    folder.write("d/sub/short", &best());
    folder
}

/// All paths below a folder, sorted.
pub fn paths(folder: &Folder, name: &str) -> String {
    folder
        .bash(&format!("cd {name} && find . | sort"))
        .ended(0)
        .text()
}

/// The last line of standard error.
pub fn summary(run: &Outcome) -> String {
    run.notes().lines().last().unwrap_or_default().to_string()
}
