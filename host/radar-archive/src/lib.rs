//! Radar picture archive: safe calls over the proved engine.
//!
//! A [`Picture`] is dimensions, an empty word E and one 32-bit word for each cell, in row order. Its file keeps the words that are not
//! E, and a header of one of six kinds that says where they stood; a [`Setting`] names [`Kind`], width and step. An [`Archive`] is an
//! accepted file, opened, over bytes that it owns or borrows. A file that is not accepted is told by a [`Fault`]: the number of the
//! signal list, a sentence, and the byte.
//!
//! The engine is total and proved against the format's definitions. This crate links its static library (`libexports.a`, found by the
//! variable `RADAR_ARCHIVE_LIB_DIR` at build time, else in the repository's `target/staticlib`), sizes destinations and turns numbers
//! into [`Refusal`]s. [`calls`] has the same calls on lent buffers, without allocation. The crate needs no standard library, only an
//! allocator.
//!
//! ```
//! use radar_archive::{Archive, Dimensions, Picture, Position, Rank, Ranked, Setting};
//!
//! let picture = Picture {
//!     dimensions: Dimensions::of(&[12])?,
//!     empty: 0,
//!     words: vec![0, 0, 7, 9, 0, 5, 0, 0, 0, 0, 300, 0],
//! };
//! let file = picture.make(Setting::base_offset(1, 2))?;
//! assert_eq!(file.len(), 80);
//!
//! let archive = Archive::open(file)?;
//! assert_eq!(archive.rank(Position(5)), Ok(Ranked::Stored(Rank(2))));
//! assert_eq!(archive.rank(Position(6)), Ok(Ranked::Empty(3)));
//! assert_eq!(archive.count(Position(3), Position(6)), Ok(2));
//! assert_eq!(archive.expand(), picture.words);
//! # Ok::<(), radar_archive::Refusal>(())
//! ```
#![no_std]
#![deny(unsafe_code)]
#![warn(missing_docs)]

extern crate alloc;

mod archive;
mod buffers;
pub mod calls;
pub mod diagnosis;
mod dimensions;
#[allow(unsafe_code)]
mod ffi;
mod header;
mod kind;
mod layout;
mod lengths;
mod picture;
mod ranked;
mod refusal;
mod setting;
mod stored;

pub use archive::Archive;
pub use diagnosis::Fault;
pub use dimensions::{Coordinates, Dimensions};
pub use kind::{Kind, UnknownKind};
pub use lengths::{Lengths, Offer};
pub use picture::{Picture, Position, Rank, MOST_CELLS};
pub use ranked::Ranked;
pub use refusal::Refusal;
pub use setting::Setting;
pub use stored::StoredCells;
