//! `position`: the position of a rank.

use radar_archive::{Position, Rank};

use crate::arguments::{Command, Given, Operands, Opt};
use crate::commands::lookup::{placed, put_line};
use crate::failure::Failure;
use crate::input::Input;
use crate::{numbers, refused};

pub(super) static COMMAND: Command = Command {
    name: "position",
    options: &[Opt::RANK, Opt::JSON],
    operands: Operands::each(&["FILE"]),
    help: include_str!("../help/position.txt"),
    run,
};

fn run(given: &Given) -> Result<u8, Failure> {
    let rank = given.required_number(&Opt::RANK)?;
    let file = Input::picture(&given.operands[0])?;
    let archive = file.open()?;
    let dimensions = archive.dimensions();
    let found = archive
        .position(Rank(rank))
        .and_then(|position| Ok((position, dimensions.coordinates(position)?)));
    let (Position(position), coordinates) = found.map_err(|refusal| {
        let message = refused::rank(rank, archive.stored_count());
        Failure::refused(&file.path, refusal, message)
    })?;
    if given.has(&Opt::JSON) {
        return put_line(&placed(dimensions, Position(position)).line());
    }
    let coordinates = numbers::joined(&coordinates, ",");
    put_line(format!("{position} {coordinates}\n").as_bytes())
}
