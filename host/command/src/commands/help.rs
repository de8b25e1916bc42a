//! `help`: the help of the program or of a command.

use crate::arguments::{Command, Given, Operands};
use crate::commands::{named, tell};
use crate::failure::Failure;
use crate::help::PROGRAM;

pub(super) static COMMAND: Command = Command {
    name: "help",
    options: &[],
    operands: Operands {
        names: &["CMD"],
        optional: 1,
        many: false,
    },
    help: include_str!("../help/help.txt"),
    run,
};

fn run(given: &Given) -> Result<u8, Failure> {
    match given.operands.first() {
        Some(name) => tell(named(name)?.help),
        None => tell(PROGRAM),
    }
}
