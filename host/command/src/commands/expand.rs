//! `expand`: all words of a picture, raw.

use crate::arguments::{Command, Given, Operands, Opt};
use crate::commands::put_out;
use crate::failure::{Failure, DONE};
use crate::input::Input;
use crate::output::Content;

pub(super) static COMMAND: Command = Command {
    name: "expand",
    options: &[Opt::OUTPUT, Opt::FORCE],
    operands: Operands::each(&["FILE"]),
    help: include_str!("../help/expand.txt"),
    run,
};

fn run(given: &Given) -> Result<u8, Failure> {
    let output = put_out::output(given)?;
    let file = Input::picture(&given.operands[0])?;
    let words = file.open()?.expand();
    output.put(&raw(&words), Content::Raw)?;
    Ok(DONE)
}

/// Words as bytes, the lowest byte of each first.
pub(super) fn raw(words: &[u32]) -> Vec<u8> {
    let mut bytes = vec![0; 4 * words.len()];
    for (bytes, word) in bytes.chunks_exact_mut(4).zip(words) {
        bytes.copy_from_slice(&word.to_le_bytes());
    }
    bytes
}
