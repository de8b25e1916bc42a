//! Output: results on standard output, and files that are written whole or not at all.

mod folders;
mod leftover;
#[allow(unsafe_code)]
mod lock;
#[cfg(test)]
mod scratch;
mod standard;
mod target;
mod temporary;

use std::ffi::OsStr;
use std::io::{self, IsTerminal};

use radar_archive::calls;

use crate::failure::Failure;

pub use folders::Folders;
pub use leftover::{is_temporary, Leftovers};
use lock::PATIENCE;
pub use standard::Results;
use target::Target;

/// What the bytes of an output file are.
#[derive(Clone, Copy, Debug, PartialEq, Eq)]
pub enum Content {
    /// A picture file, which the engine checks once more before it takes its place.
    Picture,
    /// Raw words.
    Raw,
    /// Text.
    Text,
}

/// Where a command's file goes.
#[derive(Debug)]
pub struct Output {
    target: Option<Target>,
}

impl Output {
    /// Looks at the target that `-o` names; one that may not be written is refused here, before anything is computed.
    pub fn look(name: &OsStr, force: bool) -> Result<Output, Failure> {
        if name == "-" && io::stdout().is_terminal() && !force {
            let message = "is a terminal; these are bytes, not text: name a file, pipe them on, or use --force";
            return Err(Failure::file("standard output", message));
        }
        Output::look_for_text(name, force)
    }

    /// The same for text, which may go to a terminal too.
    pub fn look_for_text(name: &OsStr, force: bool) -> Result<Output, Failure> {
        let target = match name == "-" {
            true => None,
            false => Some(Target::look(name, force)?),
        };
        Ok(Output { target })
    }

    /// Locks the file that is to be replaced from now on, before it is read; without this call it is locked when it is replaced.
    pub fn lock(&mut self) -> Result<(), Failure> {
        match &mut self.target {
            Some(target) => target.lock(PATIENCE),
            None => Ok(()),
        }
    }

    /// Puts the bytes there.
    pub fn put(self, bytes: &[u8], content: Content) -> Result<(), Failure> {
        self.put_among(bytes, content, &mut Leftovers::default())
    }

    /// Puts the bytes there, as one of many files.
    pub fn put_among(
        self,
        bytes: &[u8],
        content: Content,
        leftovers: &mut Leftovers,
    ) -> Result<(), Failure> {
        if content == Content::Picture {
            if let Err(refusal) = calls::check(bytes) {
                let name = self.target.map_or("standard output".into(), |t| t.name);
                let message =
                    format!("not written: the engine refuses its own file with {refusal}");
                return Err(Failure::file(name, message));
            }
        }
        match self.target {
            Some(target) => target.put(bytes, leftovers),
            None => {
                let mut results = Results::open()?;
                results.put(bytes)?;
                results.finish()
            }
        }
    }
}
