//! `rank`: the rank at a place, or at each of many.

use radar_archive::{Rank, Ranked};

use crate::arguments::{Command, Given, Operands, Opt};
use crate::commands::lookup::Lookup;
use crate::failure::Failure;
use crate::json::Object;
use crate::numbers;

pub(super) static COMMAND: Command = Command {
    name: "rank",
    options: &[Opt::AT, Opt::JSON],
    operands: Operands::each(&["FILE"]),
    help: include_str!("../help/rank.txt"),
    run,
};

fn run(given: &Given) -> Result<u8, Failure> {
    let lookup = Lookup {
        find: |archive, position| archive.rank(position),
        text,
        members,
    };
    lookup.run(given)
}

fn text(line: &mut Vec<u8>, found: Ranked, _: bool) {
    match found {
        Ranked::Stored(Rank(rank)) => numbers::put(line, rank),
        Ranked::Empty(before) => {
            line.extend_from_slice(b"empty, ");
            numbers::put(line, before);
            line.extend_from_slice(b" stored before");
        }
    }
}

fn members(object: &mut Object, found: Ranked) {
    let rank = found.rank().map(|Rank(rank)| rank as usize);
    object
        .number_or_null("rank", rank)
        .number("before", found.before().into());
}
