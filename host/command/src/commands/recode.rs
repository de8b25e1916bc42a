//! What `best` and `change` share: a picture file put out in another setting, or all files of a folder.

use std::path::Path;

use radar_archive::Archive;

use crate::arguments::{Given, Opt};
use crate::commands::walk::Names;
use crate::commands::{put_out, tree};
use crate::failure::{note, Failure, DONE};
use crate::input::Input;
use crate::output::Output;

/// What a command makes of a picture file.
#[derive(Debug)]
pub(super) struct Made {
    /// The new file.
    pub(super) bytes: Vec<u8>,
    /// What is told of it.
    pub(super) told: Option<String>,
}

/// Makes the new file of an opened one.
pub(super) type Make<'a> = dyn Fn(&Input, &Archive<&[u8]>) -> Result<Made, Failure> + 'a;

/// Whether the operand is a folder, whose files are meant.
pub(super) fn is_tree(given: &Given) -> bool {
    let operand = &given.operands[0];
    operand != "-" && Path::new(operand).is_dir()
}

/// Runs the command on its operand.
pub(super) fn run(given: &Given, make: &Make<'_>) -> Result<u8, Failure> {
    let names = Names::of(given)?;
    if is_tree(given) {
        return tree::run(given, names, make);
    }
    match given.value(&Opt::OUTPUT) {
        Some(name) => {
            let output = put_out::look(given, name)?;
            one(given, output, make)
        }
        None => one(given, in_place(given)?, make),
    }
}

/// Puts out one file. In place, one whose bytes do not change is left as it is.
fn one(given: &Given, output: Output, make: &Make<'_>) -> Result<u8, Failure> {
    let file = Input::picture(&given.operands[0])?;
    let made = make(&file, &file.open()?)?;
    if given.has(&Opt::OUTPUT) || made.bytes != file.bytes {
        put_out::put(output, &made.bytes)?;
    }
    if let Some(told) = made.told.filter(|_| !given.has(&Opt::QUIET)) {
        note(&file.path, &told);
    }
    Ok(DONE)
}

/// The operand as the file to be written, which `--force` alone asks for.
fn in_place(given: &Given) -> Result<Output, Failure> {
    let operand = &given.operands[0];
    wants_force(given, "FILE", "the file")?;
    if operand == "-" {
        let name = given.command().name;
        let message = "standard input is no file to be replaced in place";
        return Err(given.usage(format!("'{name}' wants -o FILE: {message}")));
    }
    put_out::look(given, operand)
}

/// Refuses a call that has neither `-o` nor `--force`.
pub(super) fn wants_force(given: &Given, wanted: &str, replaced: &str) -> Result<(), Failure> {
    if given.has(&Opt::FORCE) {
        return Ok(());
    }
    let name = given.command().name;
    let message = format!("'{name}' wants -o {wanted}, or --force to replace {replaced} in place");
    Err(given.usage(message))
}
