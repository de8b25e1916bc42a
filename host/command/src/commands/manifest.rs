//! `manifest`: the sums of a folder's files and the identities of their pictures, written and compared.

mod facts;
mod folder;
mod listed;
mod names;
mod state;
mod tally;
mod text;
mod verify;
mod write;

use std::ffi::{OsStr, OsString};
use std::fs;
use std::path::Path;

use crate::arguments::{Command, Given, Operands, Opt};
use crate::failure::{reason, Failure};
use crate::shown;

pub(super) use text::is_manifest;

/// The name of a folder's manifest, where no other is given.
const NAME: &str = "MANIFEST.sha256";

pub(super) static COMMAND: Command = Command {
    name: "manifest",
    options: &[
        Opt::OUTPUT,
        Opt::FORCE,
        Opt::MANIFEST,
        Opt::QUIET,
        Opt::JSON,
        Opt::ALL,
        Opt::NO_PROGRESS,
    ],
    operands: Operands::each(&["write or verify", "DIR"]),
    help: include_str!("../help/manifest.txt"),
    run,
};

fn run(given: &Given) -> Result<u8, Failure> {
    let (act, folder) = (&given.operands[0], &given.operands[1]);
    match act.to_str() {
        Some("write") => {
            alone(given, "verify", &[Opt::MANIFEST, Opt::QUIET, Opt::JSON])?;
            let name = named(given, &Opt::OUTPUT)?;
            is_folder(folder)?;
            write::run(given, folder, &name)
        }
        Some("verify") => {
            alone(given, "write", &[Opt::OUTPUT, Opt::FORCE])?;
            let name = named(given, &Opt::MANIFEST)?;
            is_folder(folder)?;
            verify::run(given, folder, &name)
        }
        _ => {
            let act = shown::quoted(act);
            Err(given.usage(format!("'manifest' takes write or verify, not {act}")))
        }
    }
}

/// Refuses the options of the other act.
fn alone(given: &Given, other: &str, options: &[Opt]) -> Result<(), Failure> {
    match options.iter().find(|option| given.has(option)) {
        Some(option) => {
            let written = option.written();
            Err(given.usage(format!("{written} goes with 'manifest {other}'")))
        }
        None => Ok(()),
    }
}

/// The manifest that an option names, or that of the folder.
fn named(given: &Given, option: &Opt) -> Result<OsString, Failure> {
    match given.value(option) {
        Some(name) if name.is_empty() => Err(given.bad_value(option, "'' names no file")),
        Some(name) => Ok(name.to_owned()),
        None => Ok(Path::new(&given.operands[1]).join(NAME).into_os_string()),
    }
}

/// Wants a folder.
fn is_folder(name: &OsStr) -> Result<(), Failure> {
    let failed = |why: &str| Err(Failure::file(name, format!("cannot be read: {why}")));
    if name == "-" {
        return failed("it is standard input; a folder of that name is './-'");
    }
    match fs::metadata(name) {
        Ok(found) if found.is_dir() => Ok(()),
        Ok(_) => failed("it is not a folder; name the folder that the files are in"),
        Err(error) => failed(&reason(&error)),
    }
}
