//! A lookup at each place that standard input has.

use std::ffi::OsStr;

use radar_archive::{diagnosis, Archive, Kind, Setting};

use super::{placed, Lookup};
use crate::arguments::{Given, Opt};
use crate::failure::{Failure, DONE};
use crate::input::Input;
use crate::json::Object;
use crate::lines::Lines;
use crate::output::Results;
use crate::place::Place;

impl<T> Lookup<T> {
    /// Puts a line for each place. What was found before a place that is none stays: the lines are answered as they come.
    pub(super) fn each(&self, given: &Given) -> Result<u8, Failure> {
        let mut lines = Lines::open(given, OsStr::new("-"))?;
        let file = Input::picture(&given.operands[0])?;
        let archive = file.open()?;
        let changed = changed(&file, &archive)?;
        let searched = changed.as_ref().map_or(archive, Archive::borrowed);
        let mut results = Results::open()?;
        let ended = self.put_each(given, &file, &searched, &mut lines, &mut results);
        results.finish()?;
        ended?;
        Ok(DONE)
    }

    /// Puts what is found at the place of each line.
    fn put_each(
        &self,
        given: &Given,
        file: &Input,
        archive: &Archive<&[u8]>,
        lines: &mut Lines,
        results: &mut Results,
    ) -> Result<(), Failure> {
        loop {
            if lines.may_wait() {
                results.flush()?;
            }
            if !lines.read_next_filled()? {
                return Ok(());
            }
            let position = alone(lines)?
                .position(archive.dimensions())
                .map_err(|outside| lines.outside(lines.number(), &file.path, outside))?;
            let found = self.found(file, archive, position)?;
            let object = match given.has(&Opt::JSON) {
                true => placed(archive.dimensions(), position),
                false => Object::new(),
            };
            results.put(&self.line(given, object, found))?;
        }
    }
}

/// The place that a line is.
fn alone(lines: &Lines) -> Result<Place, Failure> {
    let mut words = lines.words();
    match (words.next(), words.next()) {
        (Some(place), None) => lines.place(place),
        _ => Err(lines.wrong("a line is one place, and nothing after it")),
    }
}

/// A file of kind 4 or 6 changed to kind 2, since a lookup there is a pass along the file; nothing for another kind.
fn changed(file: &Input, archive: &Archive<&[u8]>) -> Result<Option<Archive>, Failure> {
    if !matches!(archive.setting().kind, Kind::Jumps | Kind::PointedJumps) {
        return Ok(None);
    }
    let changed = archive.change(Setting::positions());
    let bytes = changed.map_err(|refusal| file.refused(diagnosis::of(&file.bytes, refusal)))?;
    let opened = Archive::open(bytes).map_err(|fault| file.refused(fault))?;
    Ok(Some(opened))
}
