//! `count`: the number of stored cells from one place to another.

use crate::arguments::{Command, Given, Operands, Opt};
use crate::commands::lookup::{place_in, put_line};
use crate::failure::Failure;
use crate::input::Input;
use crate::json::Object;
use crate::refused;

pub(super) static COMMAND: Command = Command {
    name: "count",
    options: &[Opt::FROM, Opt::TO, Opt::JSON],
    operands: Operands::each(&["FILE"]),
    help: include_str!("../help/count.txt"),
    run,
};

fn run(given: &Given) -> Result<u8, Failure> {
    let (from, to) = (given.place(&Opt::FROM)?, given.place(&Opt::TO)?);
    let file = Input::picture(&given.operands[0])?;
    let archive = file.open()?;
    let end = |option, place| place_in(given, option, &file, &archive, place);
    let (from, to) = (end(&Opt::FROM, &from)?, end(&Opt::TO, &to)?);
    let count = archive.count(from, to).map_err(|refusal| {
        let message = refused::ends(from, to, archive.dimensions());
        Failure::refused(&file.path, refusal, message)
    })?;
    if given.has(&Opt::JSON) {
        return put_line(&Object::new().number("count", count.into()).line());
    }
    put_line(format!("{count}\n").as_bytes())
}
