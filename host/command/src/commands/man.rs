//! `man`: the man page.

use crate::arguments::{Command, Given, Operands};
use crate::commands::tell;
use crate::failure::Failure;

/// The man page.
pub(crate) const PAGE: &str = include_str!("../../man/radar-archive.1");

pub(super) static COMMAND: Command = Command {
    name: "man",
    options: &[],
    operands: Operands::NONE,
    help: include_str!("../help/man.txt"),
    run,
};

fn run(_: &Given) -> Result<u8, Failure> {
    tell(PAGE)
}
