//! `change`: the picture in another setting.

use radar_archive::{calls, Archive, Refusal};

use crate::arguments::{Command, Given, Operands, Opt};
use crate::commands::put_out;
use crate::commands::recode::{self, Made};
use crate::failure::Failure;
use crate::input::Input;
use crate::refused;

pub(super) static COMMAND: Command = Command {
    name: "change",
    options: &[
        Opt::KIND,
        Opt::WIDTH,
        Opt::STEP,
        Opt::OUTPUT,
        Opt::FORCE,
        Opt::MAX_LENGTH,
        Opt::NAME,
        Opt::ALL,
        Opt::QUIET,
    ],
    operands: Operands::each(&["FILE or DIR"]),
    help: include_str!("../help/change.txt"),
    run,
};

/// What `--kind`, `--width`, `--step` and `--max-length` ask for.
#[derive(Clone, Copy)]
struct Asked {
    numbers: [u32; 3],
    most: Option<u32>,
}

fn run(given: &Given) -> Result<u8, Failure> {
    let asked = Asked {
        numbers: given.setting()?,
        most: given.number(&Opt::MAX_LENGTH)?,
    };
    if recode::is_tree(given) {
        allowed(given, asked.numbers)?;
    }
    recode::run(given, &|file, archive| made(file, archive, asked))
}

/// Refuses a setting that no file can have, once for all files of a folder: the engine refuses it for a picture of one cell.
fn allowed(given: &Given, numbers: [u32; 3]) -> Result<(), Failure> {
    let folder = &given.operands[0];
    let setting = put_out::setting(folder, numbers)?;
    let mut smallest = [0; 64];
    match calls::make(setting, 1, &[1; 4], 0, &[0], &mut smallest) {
        Err(refusal @ Refusal::Setting) => {
            let message = refused::setting(refusal, setting);
            Err(Failure::refused(folder, refusal, message))
        }
        _ => Ok(()),
    }
}

/// The file in the setting that is asked for.
fn made(file: &Input, archive: &Archive<&[u8]>, asked: Asked) -> Result<Made, Failure> {
    let setting = put_out::setting(&file.path, asked.numbers)?;
    let bytes = put_out::changed(file, archive, setting, asked.most)?;
    Ok(Made { bytes, told: None })
}
