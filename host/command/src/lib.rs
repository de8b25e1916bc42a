//! The command `radar-archive`: check, read, make and change radar picture files at a shell.
//!
//! [`run`] is the whole program. A command of [`commands`] reads its files by [`input`], asks the engine through the crate
//! `radar_archive`, and puts results on standard output or, by [`output`], in a file. What goes wrong is a [`failure::Failure`].
#![deny(unsafe_code)]
#![warn(missing_docs)]

pub mod arguments;
pub mod commands;
pub mod failure;
#[allow(unsafe_code)]
pub mod glob;
pub mod help;
pub mod input;
pub mod json;
pub mod lines;
pub mod numbers;
pub mod output;
pub mod place;
pub mod progress;
pub mod refused;
pub mod sha256;
pub mod shown;
#[allow(unsafe_code)]
pub mod signals;
#[allow(unsafe_code)]
pub mod started;
pub mod version;

use std::ffi::OsString;

use failure::Failure;

/// Runs the program on its arguments, the program's name left out, and gives the exit status.
pub fn run(arguments: impl Iterator<Item = OsString>) -> u8 {
    match writable().and_then(|()| commands::run(arguments)) {
        Ok(status) => status,
        Err(failure) => {
            failure.tell();
            failure.status()
        }
    }
}

/// Refuses a standard output that was closed from the start: what is put there would be lost in silence.
fn writable() -> Result<(), Failure> {
    if started::output_closed() {
        let message = "is closed; send it to a file or a pipe, or to /dev/null if it is not wanted";
        return Err(Failure::file("standard output", message));
    }
    Ok(())
}
