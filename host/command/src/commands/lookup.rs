//! What the lookups share.

mod each;

use radar_archive::{Archive, Dimensions, Position, Refusal};

use crate::arguments::{Given, Opt};
use crate::failure::{Failure, DONE};
use crate::input::Input;
use crate::json::Object;
use crate::output::Results;
use crate::place::Place;
use crate::refused;

/// A lookup: what it finds at a position, and how that is put.
pub(super) struct Lookup<T> {
    /// Finds it in an opened file.
    pub(super) find: fn(&Archive<&[u8]>, Position) -> Result<T, Refusal>,
    /// Puts it as text, words with `--hex` in hexadecimal.
    pub(super) text: fn(&mut Vec<u8>, T, bool),
    /// Puts it as members of an object.
    pub(super) members: fn(&mut Object, T),
}

impl<T> Lookup<T> {
    /// Looks up the place of `--at`, or each that standard input has, in the file that is the operand.
    pub(super) fn run(&self, given: &Given) -> Result<u8, Failure> {
        if given.is_input(&Opt::AT)? {
            return self.each(given);
        }
        let place = given.place(&Opt::AT)?;
        let file = Input::picture(&given.operands[0])?;
        let archive = file.open()?;
        let position = place_in(given, &Opt::AT, &file, &archive, &place)?;
        let found = self.found(&file, &archive, position)?;
        put_line(&self.line(given, Object::new(), found))
    }

    /// What is found at a position.
    fn found(
        &self,
        file: &Input,
        archive: &Archive<&[u8]>,
        position: Position,
    ) -> Result<T, Failure> {
        (self.find)(archive, position).map_err(|refusal| {
            let message = refused::position(position.0, archive.cells());
            Failure::refused(&file.path, refusal, message)
        })
    }

    /// The line of what is found; with `--json` the last members of an object.
    fn line(&self, given: &Given, mut object: Object, found: T) -> Vec<u8> {
        if given.has(&Opt::JSON) {
            (self.members)(&mut object, found);
            return object.line();
        }
        let mut line = Vec::new();
        (self.text)(&mut line, found, given.has(&Opt::HEX));
        line.push(b'\n');
        line
    }
}

/// The position in a file's picture of the place that an option has.
pub(super) fn place_in(
    given: &Given,
    option: &Opt,
    file: &Input,
    archive: &Archive<&[u8]>,
    place: &Place,
) -> Result<Position, Failure> {
    place
        .position(archive.dimensions())
        .map_err(|outside| given.outside(option, &file.path, outside))
}

/// An object that begins with a position of a picture and its coordinates.
pub(super) fn placed(dimensions: Dimensions, position: Position) -> Object {
    let mut object = Object::new();
    object.number("position", position.0.into());
    if let Ok(coordinates) = dimensions.coordinates(position) {
        object.numbers("coordinates", &coordinates);
    }
    object
}

/// Puts one line on standard output and gives the exit status.
pub(super) fn put_line(line: &[u8]) -> Result<u8, Failure> {
    let mut results = Results::open()?;
    results.put(line)?;
    results.finish()?;
    Ok(DONE)
}
