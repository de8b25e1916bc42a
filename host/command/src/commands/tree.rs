//! A command on each file of a folder and its subfolders.

mod below;
mod plan;
mod source;
mod tally;

use std::ffi::OsStr;

use crate::arguments::{Given, Opt};
use crate::commands::manifest::is_manifest;
use crate::commands::passed::{no_files, Passed, MANIFEST};
use crate::commands::recode::{wants_force, Made, Make};
use crate::commands::walk::{Names, Walk};
use crate::failure::{note, tell, Failure, DONE};
use crate::input::Input;
use crate::output::{Content, Folders, Leftovers, Output};

use below::Below;
use plan::Step;
use source::Source;
use tally::Tally;

/// Runs a command on the files of the folder that is its operand.
pub(super) fn run(given: &Given, names: Names, make: &Make<'_>) -> Result<u8, Failure> {
    let output = given.value(&Opt::OUTPUT);
    if output.is_none() {
        wants_force(given, "DIR", "the files")?;
    }
    let source = Source::of(&given.operands[0])?;
    let below = output.map(|name| Below::look(given, name, &source));
    let below = below.transpose()?;
    let walk = Walk::through(&given.operands, names);
    let steps = match &below {
        Some(below) => plan::into(&walk, no_files(given), below),
        None => plan::in_place(&walk, no_files(given), &source),
    };
    let mut run = Run {
        make,
        made: None,
        leftovers: Leftovers::default(),
        quiet: given.has(&Opt::QUIET),
        tally: Tally::after(Passed::of(&walk)),
    };
    steps.iter().try_for_each(|step| run.take(step))?;
    Ok(run.end())
}

/// A new file.
struct New<'a> {
    /// The old one's path.
    path: &'a OsStr,
    /// The old one's length.
    before: usize,
    made: Made,
    /// Whether its bytes are others than the old one's.
    changed: bool,
}

/// A run on its way.
struct Run<'a> {
    make: &'a Make<'a>,
    /// The folder that `-o` names, made for the first file.
    made: Option<Folders>,
    leftovers: Leftovers,
    quiet: bool,
    tally: Tally,
}

impl Run<'_> {
    /// Takes a step. A file that fails is told and the others go on, but for a folder to put them in.
    fn take(&mut self, step: &Step<'_>) -> Result<(), Failure> {
        let (path, new) = match step {
            Step::InPlace(path) => (path, self.replaced(path)),
            Step::Into(path, below) => (path, self.put_below(path, below)?),
            Step::Note(path, message) => {
                self.note(path, message);
                return Ok(());
            }
            Step::Failed(failure) => {
                self.failed(failure);
                return Ok(());
            }
        };
        match new {
            Ok(Some(new)) => self.done(&new),
            Ok(None) => self.note(path, MANIFEST),
            Err(failure) => self.failed(&failure),
        }
        Ok(())
    }

    /// Replaces a file, which is locked before it is read. One whose bytes do not change is left as it is.
    fn replaced<'a>(&mut self, path: &'a OsStr) -> Result<Option<New<'a>>, Failure> {
        let mut output = Output::look(path, true)?;
        output.lock()?;
        let new = self.new_of(path)?;
        if let Some(new) = new.as_ref().filter(|new| new.changed) {
            output.put_among(&new.made.bytes, Content::Picture, &mut self.leftovers)?;
        }
        Ok(new)
    }

    /// Puts the new file of one that stays below another folder, which is made for the first; the outer failure is that it cannot be made.
    fn put_below<'a>(
        &mut self,
        path: &'a OsStr,
        below: &Below<'_>,
    ) -> Result<Result<Option<New<'a>>, Failure>, Failure> {
        let new = match self.made_for(path, below) {
            Ok(Some(new)) => new,
            other => return Ok(other),
        };
        if self.made.is_none() {
            self.made = Some(below.make()?);
        }
        let put = below.put(path, &new.made.bytes, &mut self.leftovers);
        Ok(put.map(|()| Some(new)))
    }

    /// Makes the new file of one that stays. Whether it may be written is seen before the old one is read.
    fn made_for<'a>(&self, path: &'a OsStr, below: &Below<'_>) -> Result<Option<New<'a>>, Failure> {
        below.is_free(path)?;
        self.new_of(path)
    }

    /// Reads a file and makes the new one; nothing of a manifest, which is no picture's.
    fn new_of<'a>(&self, path: &'a OsStr) -> Result<Option<New<'a>>, Failure> {
        let file = Input::picture(path)?;
        if is_manifest(&file.bytes) {
            return Ok(None);
        }
        let made = (self.make)(&file, &file.open()?)?;
        Ok(Some(New {
            path,
            before: file.bytes.len(),
            changed: made.bytes != file.bytes,
            made,
        }))
    }

    /// Counts and tells a file that is done.
    fn done(&mut self, new: &New<'_>) {
        let after = new.made.bytes.len();
        self.tally.done(new.changed, new.before, after);
        if let Some(told) = &new.made.told {
            self.note(new.path, told);
        }
    }

    /// Counts and tells a file that is left alone.
    fn failed(&mut self, failure: &Failure) {
        self.tally.failed(failure);
        failure.tell();
    }

    /// Tells something that is no failure.
    fn note(&self, path: &OsStr, message: &str) {
        if !self.quiet {
            note(path, message);
        }
    }

    /// Tells the summary, unless it is to be quiet and all is well, and gives the exit status.
    fn end(self) -> u8 {
        let status = self.tally.status();
        if !self.quiet || status != DONE {
            tell(&format!("{}\n", self.tally.sentence()));
        }
        status
    }
}
