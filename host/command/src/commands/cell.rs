//! `cell`: the word at a place, or at each of many.

use crate::arguments::{Command, Given, Operands, Opt};
use crate::commands::lookup::Lookup;
use crate::failure::Failure;
use crate::json::Object;
use crate::numbers;

pub(super) static COMMAND: Command = Command {
    name: "cell",
    options: &[Opt::AT, Opt::HEX, Opt::JSON],
    operands: Operands::each(&["FILE"]),
    help: include_str!("../help/cell.txt"),
    run,
};

fn run(given: &Given) -> Result<u8, Failure> {
    let lookup = Lookup {
        find: |archive, position| archive.cell(position),
        text,
        members,
    };
    lookup.run(given)
}

fn text(line: &mut Vec<u8>, word: u32, hex: bool) {
    let put = if hex { numbers::put_hex } else { numbers::put };
    put(line, word);
}

fn members(object: &mut Object, word: u32) {
    object.number("word", word.into());
}
