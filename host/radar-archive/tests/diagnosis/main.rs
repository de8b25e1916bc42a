//! The diagnosis of refused files: each sentence word for word, and many damaged and forged files.

mod fields;
mod files;
mod forged;
mod header;
mod parts;
mod positions;
mod rows;
mod runs;
