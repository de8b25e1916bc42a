//! The engine (through `radar-archive`) and the second reading (`reader`), laid side by side.
//!
//! [`sides::Sides`] makes one call on both and compares the number, the value and every element of the destination with guards around
//! it. The binary `side-by-side` does so on many pictures and files from a seed; the tests do it on all small ones.
#![warn(missing_docs)]
#![forbid(unsafe_code)]

pub mod agreeing;
pub mod arguments;
pub mod cases;
pub mod forge;
pub mod lists;
pub mod lookups;
pub mod pointers;
pub mod random;
pub mod settings;
pub mod sides;
pub mod table;
pub mod tally;
pub mod textures;
