//! Input files.

use std::ffi::{OsStr, OsString};
use std::fs::File;
use std::io::{self, Read};

use radar_archive::{calls, diagnosis, Archive, Fault, Refusal, MOST_CELLS};

use crate::failure::{reason, Failure};
use crate::numbers::grouped;

/// The longest a picture file may be: kind 3, width 2, step 1, every cell stored.
pub const LONGEST_PICTURE: u64 = 52 + 10 * MOST_CELLS as u64;

/// The bytes of a file's header.
pub const HEADER_LENGTH: u64 = 52;

/// What was read of a file.
#[derive(Clone, Debug, PartialEq, Eq)]
pub enum Contents {
    /// All of it.
    Whole(Vec<u8>),
    /// No more than its first bytes, as many as a header has at most: it has more bytes than it may have.
    Longer {
        /// The first bytes.
        begin: Vec<u8>,
        /// How many bytes it has, in words: a stream's are not counted to the end.
        length: String,
    },
}

/// A file that was read whole.
#[derive(Clone, Debug, PartialEq, Eq)]
pub struct Input {
    /// Its path as it was given; `-` is standard input.
    pub path: OsString,
    /// Its bytes.
    pub bytes: Vec<u8>,
}

impl Input {
    /// Reads a picture file. Of one that is longer than any, no more than the header is looked at.
    pub fn picture(path: &OsStr) -> Result<Input, Failure> {
        let path = path.to_owned();
        match contents(&path, LONGEST_PICTURE)? {
            Contents::Whole(bytes) => Ok(Input { path, bytes }),
            Contents::Longer { begin, length } => {
                let fault = too_long(&begin, &length);
                Err(Failure::Refused { path, fault })
            }
        }
    }

    /// Opens the picture file: the complete check.
    pub fn open(&self) -> Result<Archive<&[u8]>, Failure> {
        Archive::open(&self.bytes[..]).map_err(|fault| self.refused(fault))
    }

    /// The failure that the file is refused with 1 to 6.
    pub fn refused(&self, fault: Fault) -> Failure {
        Failure::Refused {
            path: self.path.clone(),
            fault,
        }
    }
}

/// What is wrong with a file that is longer than any picture's: its length is not the layout's, if its header has no fault that comes
/// before.
pub fn too_long(begin: &[u8], length: &str) -> Fault {
    if let Err(refusal) = calls::check(begin) {
        if refusal.number() < Refusal::Counts.number() {
            return diagnosis::of(begin, refusal);
        }
    }
    let most = grouped(LONGEST_PICTURE);
    Fault {
        refusal: Refusal::Counts,
        message: format!("the file has {length} bytes, and no picture file has more than {most}"),
        byte: None,
    }
}

/// Reads a file that may have so many bytes.
pub fn contents(path: &OsStr, most: u64) -> Result<Contents, Failure> {
    read(path, most).map_err(|error| unread(path, &error))
}

/// The failure that a file cannot be read.
pub fn unread(path: &OsStr, error: &io::Error) -> Failure {
    let why = match error.kind() {
        io::ErrorKind::IsADirectory => {
            "it is a folder; name a file in it ('check', 'best' and 'change' take folders)"
                .to_string()
        }
        _ => reason(error),
    };
    Failure::file(path, format!("cannot be read: {why}"))
}

/// Reads a file, or standard input, that may have so many bytes.
fn read(path: &OsStr, most: u64) -> io::Result<Contents> {
    if path == "-" {
        return read_up_to(io::stdin().lock(), most, 0);
    }
    let file = File::open(path)?;
    let found = file.metadata()?;
    if !found.is_file() {
        return read_up_to(file, most, 0);
    }
    if found.len() <= most {
        return read_up_to(file, most, found.len());
    }
    let mut begin = Vec::new();
    file.take(HEADER_LENGTH).read_to_end(&mut begin)?;
    let length = grouped(found.len());
    Ok(Contents::Longer { begin, length })
}

/// Reads to the end, or to the first byte that is too many.
fn read_up_to(source: impl Read, most: u64, expected: u64) -> io::Result<Contents> {
    let mut bytes = Vec::with_capacity(expected as usize + 1);
    source.take(most + 1).read_to_end(&mut bytes)?;
    if bytes.len() as u64 <= most {
        return Ok(Contents::Whole(bytes));
    }
    bytes.truncate(HEADER_LENGTH as usize);
    Ok(Contents::Longer {
        begin: bytes,
        length: format!("more than {}", grouped(most)),
    })
}
