//! A plain second reading of the radar picture archive: document 01, with the requests S-7 (kind
//! 6) and S-9 (the number of stored cells before an empty cell) of document 02.
//!
//! Every call works on the whole picture: a file is decoded to words, the words are laid out again,
//! and a lookup looks into the words or into the list of stored positions. Nothing is searched in
//! the file itself, so that a fault here and a fault in a faster engine are unlikely to agree.
//!
//! A `room` parameter is the length of the destination that the caller would lend: bytes for files,
//! words for expand and box, numbers for coordinates. An accepted call returns the elements that
//! fill the destination's beginning; a refused one returns its number of the signal list.
#![warn(missing_docs)]
#![forbid(unsafe_code)]

mod calls;
mod check;
mod coordinates;
mod decode;
mod header;
mod layout;
mod lister;
mod picture;
mod refusal;
mod runs;
mod table;
#[cfg(test)]
mod tests;

pub use calls::{
    box_words, cell, change, expand, make, position, rank, rank_range, shorter, write,
};
pub use check::{check, Parsed, Ranked};
pub use coordinates::{coordinates_position, position_coordinates};
pub use lister::{list, LONGEST_LISTED};
pub use picture::{Dimensions, Picture, Position, Rank, Setting, MOST_CELLS};
pub use refusal::{number, Refusal};
pub use table::{Request, Table};
