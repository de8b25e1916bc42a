//! Places in a picture: coordinates, or a position.

use std::ffi::OsStr;

use radar_archive::{Coordinates, Dimensions, Position, Refusal};

use crate::{numbers, refused, shown};

/// A place as it is written: `3,17,200`, or `@N` for the position N.
#[derive(Clone, Copy, Debug, PartialEq, Eq)]
pub enum Place {
    /// Coordinates, first dimension first: the number of them, 1 to 4, and four numbers, 0 past that.
    Coordinates(u8, [u32; 4]),
    /// A position in row order.
    At(u32),
}

/// Why a place is none in a picture.
#[derive(Clone, Debug, PartialEq, Eq)]
pub enum Outside {
    /// It has another number of coordinates than the picture has dimensions.
    Count(String),
    /// The engine refuses it with a number.
    Refused(Refusal, String),
}

impl Place {
    /// Reads a place, or says what is wrong with it.
    ///
    /// ```
    /// # use command::place::Place;
    /// assert_eq!(Place::of("3,0x11,200"), Ok(Place::Coordinates(3, [3, 17, 200, 0])));
    /// assert_eq!(Place::of("@6"), Ok(Place::At(6)));
    /// assert!(Place::of("3;4").is_err());
    /// ```
    pub fn of(text: &str) -> Result<Place, String> {
        let (position, rest) = match text.strip_prefix('@') {
            Some(rest) => (true, rest),
            None => (false, text),
        };
        let is_number = |part: &str| part.starts_with(|first: char| first.is_ascii_digit());
        let alike = rest.bytes().all(|b| b.is_ascii_alphanumeric() || b == b',');
        if !alike || !rest.split(',').all(is_number) || (position && rest.contains(',')) {
            let text = shown::quoted(OsStr::new(text));
            return Err(format!(
                "{text} is no place; a place is coordinates such as 3,17,200, or @N for the position N"
            ));
        }
        if position {
            return Ok(Place::At(numbers::of(rest)?));
        }
        let count = rest.split(',').count();
        if count > 4 {
            return Err(format!(
                "{text} has {count} coordinates; a picture has at most 4 dimensions"
            ));
        }
        let mut four = [0; 4];
        for (coordinate, part) in four.iter_mut().zip(rest.split(',')) {
            *coordinate = numbers::of(part)?;
        }
        Ok(Place::Coordinates(count as u8, four))
    }

    /// The position in a picture of these dimensions.
    pub fn position(&self, dimensions: Dimensions) -> Result<Position, Outside> {
        let at = match self {
            Place::At(position) => {
                coordinates_of(*position, dimensions)?;
                return Ok(Position(*position));
            }
            Place::Coordinates(count, four) => &four[..usize::from(*count).min(4)],
        };
        let extents = dimensions.extents();
        if at.len() != extents.len() {
            let message = format!(
                "{} has {}, but the picture has {} ({})",
                numbers::joined(at, ","),
                counted(at.len(), "coordinate"),
                counted(extents.len(), "dimension"),
                numbers::joined(extents, "x"),
            );
            return Err(Outside::Count(message));
        }
        dimensions
            .position(at)
            .map_err(|refusal| Outside::Refused(refusal, refused::coordinates(at, dimensions)))
    }

    /// The coordinates in a picture of these dimensions, as many as it has.
    pub fn coordinates(&self, dimensions: Dimensions) -> Result<Coordinates, Outside> {
        let Position(position) = self.position(dimensions)?;
        coordinates_of(position, dimensions)
    }
}

/// The coordinates of a position.
fn coordinates_of(position: u32, dimensions: Dimensions) -> Result<Coordinates, Outside> {
    let cells = dimensions.extents().iter().product();
    dimensions
        .coordinates(Position(position))
        .map_err(|refusal| Outside::Refused(refusal, refused::position(position, cells)))
}

/// The coordinates of a position as a place is written.
pub fn written(position: Position, dimensions: Dimensions) -> String {
    match dimensions.coordinates(position) {
        Ok(coordinates) => numbers::joined(&coordinates, ","),
        Err(_) => format!("@{}", position.0),
    }
}

/// A number of things.
fn counted(number: usize, thing: &str) -> String {
    match number {
        1 => format!("1 {thing}"),
        _ => format!("{number} {thing}s"),
    }
}
