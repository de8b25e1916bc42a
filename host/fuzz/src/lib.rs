//! What one input of the fuzzer does: it gives a file and arguments, and every call is made on both sides.
//!
//! An input is a control block of [`control::LENGTH`] bytes and a body. The body is a file, or a header with a description of a picture
//! from which the second reading makes a file. Any difference between the engine and the second reading panics.
#![warn(missing_docs)]

pub mod accepted;
pub mod control;
pub mod fence;
pub mod header;
pub mod input;
pub mod points;
pub mod refused;
pub mod seeds;
pub mod tokens;
pub mod trial;

pub use trial::trial;
