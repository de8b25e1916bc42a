//! What ends a command early, and the exit status it gives.

use std::ffi::{OsStr, OsString};
use std::io::{self, IsTerminal, Write};

use radar_archive::{Fault, Refusal};

use crate::json::Object;
use crate::{refused, shown};

/// All done.
pub const DONE: u8 = 0;
/// Something was refused with a number of the signal list.
pub const REFUSED: u8 = 1;
/// Two pictures that were compared differ.
pub const DIFFERENT: u8 = 1;
/// The arguments are not understood, or a line of text that was handed in.
pub const USAGE: u8 = 2;
/// A file could not be read or written.
pub const FILE: u8 = 3;
/// Whoever read standard output had gone before all was written.
pub const PIPE: u8 = 5;

/// What ends a command early.
#[derive(Clone, Debug, PartialEq, Eq)]
pub enum Failure {
    /// The arguments are not understood, or a line of text that was handed in.
    Usage {
        /// The command whose help is named; nothing for the program's own.
        command: Option<&'static str>,
        /// What is wrong.
        message: String,
    },
    /// A file or an argument was refused with a number of the signal list.
    Refused {
        /// The file concerned, as it was given.
        path: OsString,
        /// The number, what is wrong, and at which byte.
        fault: Fault,
    },
    /// A file could not be read or written.
    File {
        /// The file concerned, as it was given.
        path: OsString,
        /// What is wrong.
        message: String,
    },
    /// Whoever read standard output has gone. There is nobody to tell.
    Pipe,
}

impl Failure {
    /// A refusal that is not about a byte of a file.
    pub fn refused(path: &OsStr, refusal: Refusal, message: String) -> Failure {
        let fault = Fault {
            refusal,
            message,
            byte: None,
        };
        Failure::Refused {
            path: path.to_owned(),
            fault,
        }
    }

    /// A file that could not be read or written.
    pub fn file(path: impl AsRef<OsStr>, message: impl Into<String>) -> Failure {
        Failure::File {
            path: path.as_ref().to_owned(),
            message: message.into(),
        }
    }

    /// The exit status.
    pub fn status(&self) -> u8 {
        match self {
            Failure::Usage { .. } => USAGE,
            Failure::Refused { .. } => REFUSED,
            Failure::File { .. } => FILE,
            Failure::Pipe => PIPE,
        }
    }

    /// The lines that tell the failure, each with its newline.
    pub fn lines(&self, terminal: bool) -> Vec<u8> {
        let (path, message) = match self {
            Failure::Usage { command, message } => return usage(*command, message).into_bytes(),
            Failure::Refused { path, fault } => (path, format!("refused, {fault}")),
            Failure::File { path, message } => (path, message.clone()),
            Failure::Pipe => return Vec::new(),
        };
        let mut lines = b"radar-archive: ".to_vec();
        lines.extend(line(path, &message, terminal));
        lines
    }

    /// A failure about a file as the object that `--json` puts in the place of a result.
    pub fn object(&self) -> Option<Object> {
        let mut object = Object::new();
        match self {
            Failure::Refused { path, fault } => {
                let mut members = Object::new();
                refused::members(&mut members, fault);
                object.path("path", path).object("refused", &members);
            }
            Failure::File { path, message } => {
                object.path("path", path).text("error", message);
            }
            Failure::Usage { .. } | Failure::Pipe => return None,
        }
        Some(object)
    }

    /// Tells the failure on standard error.
    pub fn tell(&self) {
        put(&self.lines(io::stderr().is_terminal()));
    }
}

/// Tells a text on standard error that is no failure.
pub fn tell(text: &str) {
    put(text.as_bytes());
}

/// Tells something about a file on standard error that is no failure.
pub fn note(path: &OsStr, message: &str) {
    put(&line(path, message, io::stderr().is_terminal()));
}

/// Puts bytes on standard error. There is nobody to tell where that fails.
fn put(bytes: &[u8]) {
    let _ = io::stderr().write_all(bytes);
}

/// A line about a file.
fn line(path: &OsStr, message: &str, terminal: bool) -> Vec<u8> {
    let mut line = shown::name(path, terminal);
    line.extend_from_slice(b": ");
    line.extend_from_slice(message.as_bytes());
    line.push(b'\n');
    line
}

/// The lines of a usage error.
fn usage(command: Option<&str>, message: &str) -> String {
    let of = command.map_or(String::new(), |name| format!("{name} "));
    format!("radar-archive: {message}\nTry 'radar-archive {of}--help'.\n")
}

/// What an error of the operating system says, without its number.
pub fn reason(error: &io::Error) -> String {
    let text = error.to_string();
    match text.split_once(" (os error ") {
        Some((said, _)) => said.to_string(),
        None => text,
    }
}
