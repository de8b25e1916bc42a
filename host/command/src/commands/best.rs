//! `best`: the picture in the setting whose file is shortest.

use radar_archive::{Archive, Setting};

use crate::arguments::{Command, Given, Operands, Opt};
use crate::commands::put_out;
use crate::commands::recode::{self, Made};
use crate::failure::Failure;
use crate::input::Input;

pub(super) static COMMAND: Command = Command {
    name: "best",
    options: &[
        Opt::OUTPUT,
        Opt::FORCE,
        Opt::MAX_LENGTH,
        Opt::NAME,
        Opt::ALL,
        Opt::QUIET,
    ],
    operands: Operands::each(&["FILE or DIR"]),
    help: include_str!("../help/best.txt"),
    run,
};

fn run(given: &Given) -> Result<u8, Failure> {
    let most = given.number(&Opt::MAX_LENGTH)?;
    recode::run(given, &|file, archive| made(file, archive, most))
}

/// The file in the shortest setting, and which that is.
fn made(file: &Input, archive: &Archive<&[u8]>, most: Option<u32>) -> Result<Made, Failure> {
    let setting = archive.best().setting;
    let bytes = put_out::changed(file, archive, setting, most)?;
    let told = told(archive.setting(), file.bytes.len(), setting, bytes.len());
    Ok(Made {
        bytes,
        told: Some(told),
    })
}

/// Which setting was chosen, and both lengths.
fn told(old: Setting, old_length: usize, new: Setting, new_length: usize) -> String {
    let (from, to) = (written(old), written(new));
    format!("{old_length} bytes with {from}; {new_length} bytes with {to}, the shortest")
}

/// A setting as the options that give it.
pub(super) fn written(setting: Setting) -> String {
    format!("--kind {}{}", setting.kind, width_and_step(setting))
}

/// Width and step as options, those that are 0 left out.
pub(super) fn width_and_step(setting: Setting) -> String {
    let option = |name: &str, value: u32| match value {
        0 => String::new(),
        value => format!(" --{name} {value}"),
    };
    format!(
        "{}{}",
        option("width", setting.width),
        option("step", setting.step)
    )
}
