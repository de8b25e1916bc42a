//! `list`: the stored cells of a file, as the lister lists them.

use radar_archive::{diagnosis, Archive, Rank, Setting};

use crate::arguments::{Command, Given, Operands};
use crate::failure::{Failure, DONE};
use crate::input::Input;
use crate::numbers;
use crate::output::Results;

pub(super) static COMMAND: Command = Command {
    name: "list",
    options: &[],
    operands: Operands::each(&["FILE"]),
    help: include_str!("../help/list.txt"),
    run,
};

/// The bytes before the positions of a kind 2 file.
const HEADER_LENGTH: usize = 52;

fn run(given: &Given) -> Result<u8, Failure> {
    let mut results = Results::open()?;
    let file = listed(&mut results, Input::picture(&given.operands[0]))?;
    let archive = listed(&mut results, file.open())?;
    let (kind, cells) = (archive.setting().kind.number(), archive.cells());
    let stored = archive.stored_count();
    results.put(format!("{kind} {cells} {stored}\n").as_bytes())?;
    lines(&file, &archive, &mut results)?;
    results.finish()?;
    Ok(DONE)
}

/// Puts the line of a refused file.
fn listed<T>(results: &mut Results, read: Result<T, Failure>) -> Result<T, Failure> {
    if let Err(Failure::Refused { fault, .. }) = &read {
        results.put(format!("refused {}\n", fault.refusal.number()).as_bytes())?;
        results.flush()?;
    }
    read
}

/// Puts a line for each stored cell. The positions are those of the picture's kind 2 file.
fn lines(file: &Input, archive: &Archive<&[u8]>, results: &mut Results) -> Result<(), Failure> {
    let stored = archive.stored_count();
    let refused = |refusal| file.refused(diagnosis::of(&file.bytes, refusal));
    let words = archive.ranks(Rank(0), Rank(stored)).map_err(refused)?;
    let positions = archive.change(Setting::positions()).map_err(refused)?;
    let positions = &positions[HEADER_LENGTH..];
    let number = |bytes: &[u8]| u32::from_le_bytes([bytes[0], bytes[1], bytes[2], bytes[3]]);
    let cells = positions.chunks_exact(4).zip(words.chunks_exact(4));
    let mut line = Vec::new();
    for (rank, (position, word)) in (0..stored).zip(cells) {
        line.clear();
        numbers::put(&mut line, rank);
        line.push(b' ');
        numbers::put(&mut line, number(position));
        line.push(b' ');
        numbers::put(&mut line, number(word));
        line.push(b'\n');
        results.put(&line)?;
    }
    Ok(())
}
