//! `check`: which files are accepted.

mod list;
mod tally;
mod told;

use std::borrow::Cow;
use std::ffi::{OsStr, OsString};

use crate::arguments::{Command, Given, Operands, Opt};
use crate::commands::in_order::{in_order, Jobs};
use crate::commands::passed::{no_files, Passed, LINK, MANIFEST};
use crate::commands::walk::{Found, Names, Walk};
use crate::failure::{note, tell, Failure, DONE};
use crate::output::Results;
use crate::progress::Progress;
use crate::shown;

use tally::Tally;
use told::Told;

pub(super) static COMMAND: Command = Command {
    name: "check",
    options: &[
        Opt::JSON,
        Opt::QUIET,
        Opt::ALL,
        Opt::NAME,
        Opt::FILES0_FROM,
        Opt::JOBS,
        Opt::NO_PROGRESS,
    ],
    operands: Operands {
        names: &["FILE or DIR"],
        optional: 1,
        many: true,
    },
    help: include_str!("../help/check.txt"),
    run,
};

/// How many results may wait for their turn, for each file that is checked at a time.
const WAITING: usize = 32;

fn run(given: &Given) -> Result<u8, Failure> {
    let jobs = Jobs::of(given, WAITING)?;
    let wanted = Names::of(given)?;
    let operands = operands(given)?;
    let walk = Walk::through(&operands, wanted);
    let mut check = Check {
        progress: Progress::new(walk.found.len(), !given.has(&Opt::NO_PROGRESS)),
        results: Results::open()?,
        json: given.has(&Opt::JSON),
        quiet: given.has(&Opt::QUIET),
        no_files: no_files(given),
        tally: Tally {
            passed: Passed::of(&walk),
            ..Tally::default()
        },
    };
    let met = |found| Met::of(found, &operands);
    in_order(&walk.found, jobs, met, |met| check.take(met?))?;
    check.end()
}

/// The operands, or the names that stand for them in a list.
fn operands(given: &Given) -> Result<Cow<'_, [OsString]>, Failure> {
    let name = given.command().name;
    match (given.value(&Opt::FILES0_FROM), given.operands.first()) {
        (Some(list), None) if list.is_empty() => {
            Err(given.bad_value(&Opt::FILES0_FROM, "'' names no file"))
        }
        (Some(list), None) => {
            let names = list::names(list)?;
            if names.is_empty() {
                note(list, "no names");
            }
            Ok(Cow::Owned(names))
        }
        (Some(_), Some(operand)) => Err(given.usage(format!(
            "'{name}' takes no operand beside --files0-from; {} is one too many",
            shown::quoted(operand)
        ))),
        (None, Some(_)) => Ok(Cow::Borrowed(&given.operands)),
        (None, None) => Err(given.usage(format!("'{name}' wants FILE or DIR"))),
    }
}

/// What came of something met on the way.
enum Met<'a> {
    /// A file that was checked.
    File(Told<'a>),
    /// A folder in which there was none.
    NoFiles(&'a OsStr),
    /// A link to a folder.
    Link(&'a OsStr),
    /// A manifest that is no operand itself.
    Manifest(&'a OsStr),
}

impl<'a> Met<'a> {
    /// Checks a file; of all else it is known already what is said.
    fn of(found: &'a Found, operands: &[OsString]) -> Result<Met<'a>, Failure> {
        Ok(match found {
            Found::File(path) => match Told::file(path)? {
                told if told.is_manifest() && !operands.contains(path) => Met::Manifest(path),
                told => Met::File(told),
            },
            Found::Unreadable(path, why) => {
                Met::File(Told::unread(path, format!("cannot be read: {why}")))
            }
            Found::NoFiles(path) => Met::NoFiles(path),
            Found::Link(path) => Met::Link(path),
        })
    }
}

/// A check on its way.
struct Check {
    progress: Progress,
    results: Results,
    json: bool,
    quiet: bool,
    /// What is said of a folder without files.
    no_files: &'static str,
    tally: Tally,
}

impl Check {
    /// Tells what came of something.
    fn take(&mut self, met: Met<'_>) -> Result<(), Failure> {
        match met {
            Met::File(told) => self.told(told)?,
            Met::NoFiles(path) => self.note(path, self.no_files)?,
            Met::Link(path) => self.note(path, LINK)?,
            Met::Manifest(_) if self.quiet => {}
            Met::Manifest(path) => self.note(path, MANIFEST)?,
        }
        self.progress.step();
        Ok(())
    }

    /// Counts and tells what came out for a file.
    fn told(&mut self, told: Told<'_>) -> Result<(), Failure> {
        self.tally.count(&told);
        if self.quiet && told.is_accepted() {
            return Ok(());
        }
        if self.results.is_terminal() {
            self.progress.hide();
        }
        if self.json {
            return self.results.put(&told.object().line());
        }
        match &told {
            Told::Unread { path, message } => {
                self.before_error_line()?;
                Failure::file(path, message.as_str()).tell();
                Ok(())
            }
            told => self
                .results
                .put_path(told.path(), &format!(": {}\n", told.sentence())),
        }
    }

    /// Tells something that is no file's.
    fn note(&mut self, path: &OsStr, message: &str) -> Result<(), Failure> {
        self.before_error_line()?;
        note(path, message);
        Ok(())
    }

    /// Puts the results so far, so that lines on both streams stand in order where these go to one place.
    fn before_error_line(&mut self) -> Result<(), Failure> {
        self.progress.hide();
        self.results.flush()
    }

    /// Tells the summary, unless it is to be quiet and all is well, and gives the exit status.
    fn end(mut self) -> Result<u8, Failure> {
        self.progress.hide();
        let status = self.tally.status();
        if self.json {
            self.results.put(&self.tally.object().line())?;
        }
        self.results.finish()?;
        if !self.json && (!self.quiet || status != DONE) {
            tell(&format!("{}\n", self.tally.sentence()));
        }
        Ok(status)
    }
}
