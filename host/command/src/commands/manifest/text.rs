//! The text of a manifest.

use std::ffi::OsStr;
use std::os::unix::ffi::OsStrExt;

use crate::commands::manifest::facts::{Facts, What};
use crate::commands::manifest::names;

/// The longest manifest that is read: one of some millions of files.
pub(super) const LONGEST: u64 = 1 << 30;

/// What the first line of a manifest begins with, whatever its version.
pub(super) const BEGIN: &str = "# radar-archive manifest ";

/// The version that is written and read.
pub(super) const VERSION: &str = "1";

/// What the lines about a file's picture begin with.
pub(super) const PICTURE: &str = "# picture ";
pub(super) const SETTING: &str = "# setting ";
pub(super) const REFUSED: &str = "# refused ";

/// What the manifest says of itself, after its first line.
const ABOUT: &str = "\
# The SHA-256 sum of each file below this folder. Both of these compare them,
# the second in the folder itself, without knowing about pictures:
#   radar-archive manifest verify FOLDER
#   sha256sum -c MANIFEST.sha256
# Before the line of a file stands the identity of its picture: the SHA-256 sum
# of the picture's file in kind 2 (positions), which is the same whatever kind,
# width and step the file has. It is had again by hand with
#   radar-archive change FILE --kind positions -o - | sha256sum
# Before that stands the setting of the file: kind, width and step. A file that
# is refused as a picture file has the number and word of the refusal instead.
";

/// Whether bytes, of which the first suffice, are those of a manifest. No picture file begins so.
pub(crate) fn is_manifest(bytes: &[u8]) -> bool {
    bytes.starts_with(BEGIN.as_bytes())
}

/// The first lines of a manifest.
pub(super) fn heading() -> Vec<u8> {
    format!("{BEGIN}{VERSION}\n{ABOUT}").into_bytes()
}

/// Puts the lines of a file.
pub(super) fn put(text: &mut Vec<u8>, name: &OsStr, facts: &Facts) {
    let about = match &facts.what {
        What::Picture(sum, setting) => {
            let [kind, width, step] = (*setting).into();
            format!("{SETTING}{kind} {width} {step}\n{PICTURE}{sum}\n")
        }
        What::Refused(fault) => {
            let (number, word) = (fault.refusal.number(), fault.refusal.word());
            format!("{REFUSED}{number} {word}\n")
        }
        What::Manifest => "# a manifest, no picture\n".to_string(),
    };
    text.extend_from_slice(about.as_bytes());
    let (escaped, name) = names::written(name.as_bytes());
    let mark = if escaped { "\\" } else { "" };
    text.extend_from_slice(format!("{mark}{}  ", facts.sum).as_bytes());
    text.extend_from_slice(&name);
    text.push(b'\n');
}
