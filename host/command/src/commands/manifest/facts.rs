//! What one file holds now.

use std::ffi::OsStr;
use std::fs::{File, Metadata};
use std::io::{self, Read};
use std::os::unix::fs::MetadataExt;

use radar_archive::{Archive, Fault, Setting};

use crate::commands::manifest::text::is_manifest;
use crate::failure::{reason, Failure};
use crate::input::{too_long, HEADER_LENGTH, LONGEST_PICTURE};
use crate::numbers::grouped;
use crate::sha256::{Sha256, Sum};

/// What a file is to the engine.
#[derive(Clone, Debug, PartialEq, Eq)]
pub(super) enum What {
    /// A picture's file: the picture's identity, and the file's setting.
    Picture(Sum, Setting),
    /// Refused.
    Refused(Fault),
    /// A manifest, of a subfolder for example.
    Manifest,
}

/// What a file holds now.
#[derive(Clone, Debug, PartialEq, Eq)]
pub(super) struct Facts {
    /// The sum of its bytes.
    pub(super) sum: Sum,
    /// What those bytes are.
    pub(super) what: What,
}

impl Facts {
    /// Reads a file once; sum and picture are of the same bytes. The inner error is why the file cannot be read.
    pub(super) fn of(path: &OsStr, sha256: &Sha256) -> Result<Result<Facts, String>, Failure> {
        match Facts::read(path, sha256)? {
            Ok(facts) => Ok(Ok(facts)),
            Err(error) => Ok(Err(format!("cannot be read: {}", reason(&error)))),
        }
    }

    fn read(path: &OsStr, sha256: &Sha256) -> Result<io::Result<Facts>, Failure> {
        let opened = File::open(path).and_then(|file| Ok((file.metadata()?, file)));
        let (before, mut file) = match opened {
            Ok((found, _)) if !found.is_file() => return Ok(Err(io::Error::other(NO_FILE))),
            Ok(opened) => opened,
            Err(error) => return Ok(Err(error)),
        };
        let facts = if before.len() <= LONGEST_PICTURE {
            let mut bytes = Vec::with_capacity(before.len() as usize + 1);
            let most = LONGEST_PICTURE + 1;
            match (&mut file).take(most).read_to_end(&mut bytes) {
                Ok(read) if read as u64 == most => Err(io::Error::other(WRITTEN)),
                Ok(_) => Ok(Facts::of_bytes(&bytes, sha256)?),
                Err(error) => Err(error),
            }
        } else {
            Facts::of_longer(&mut file, before.len(), sha256)?
        };
        Ok(facts.and_then(|facts| still(&before, &file.metadata()?).map(|()| facts)))
    }

    /// Sum and picture of a file's bytes.
    fn of_bytes(bytes: &[u8], sha256: &Sha256) -> Result<Facts, Failure> {
        let sum = sha256.of(bytes)?;
        let what = match Archive::open(bytes) {
            Ok(archive) => What::Picture(identity(&archive, sum, sha256)?, archive.setting()),
            Err(fault) => not_a_picture(bytes, fault),
        };
        Ok(Facts { sum, what })
    }

    /// The sum of a file that is longer than any picture's, piece by piece.
    fn of_longer(
        file: &mut File,
        length: u64,
        sha256: &Sha256,
    ) -> Result<io::Result<Facts>, Failure> {
        let mut begin = Vec::new();
        if let Err(error) = file.take(HEADER_LENGTH).read_to_end(&mut begin) {
            return Ok(Err(error));
        }
        let sum = sha256.of_source((&begin[..]).chain(file))?;
        let what = not_a_picture(&begin, too_long(&begin, &grouped(length)));
        Ok(sum.map(|sum| Facts { sum, what }))
    }
}

/// What is said of a name that is no file any more.
const NO_FILE: &str = "it is a pipe, socket or device, not a file";

/// What is said of a file that somebody writes to.
const WRITTEN: &str = "it changed while it was read; try again when nobody writes to it";

/// The identity of a picture: the sum of its file in kind 2.
fn identity(archive: &Archive<&[u8]>, sum: Sum, sha256: &Sha256) -> Result<Sum, Failure> {
    if archive.setting() == Setting::positions() {
        return Ok(sum);
    }
    match archive.change(Setting::positions()) {
        Ok(file) => sha256.of(&file),
        Err(refusal) => {
            let message =
                format!("the engine refuses to put an accepted file in kind 2: {refusal}");
            Err(Failure::file("a picture", message))
        }
    }
}

/// What bytes are that the engine refuses.
fn not_a_picture(begin: &[u8], fault: Fault) -> What {
    if is_manifest(begin) {
        What::Manifest
    } else {
        What::Refused(fault)
    }
}

/// Holds a file to what it was before it was read.
fn still(before: &Metadata, after: &Metadata) -> io::Result<()> {
    let state = |found: &Metadata| {
        let (written, changed) = (found.mtime(), found.ctime());
        let parts = (found.mtime_nsec(), found.ctime_nsec());
        (found.len(), written, changed, parts)
    };
    if state(before) == state(after) {
        Ok(())
    } else {
        Err(io::Error::other(WRITTEN))
    }
}
