//! `diff`: the cells in which two pictures differ.

use radar_archive::{Archive, Dimensions, Position, Refusal};

use crate::arguments::{Command, Given, Operands, Opt};
use crate::commands::lookup::placed;
use crate::commands::shorter::{other, other_dimensions, other_empty};
use crate::failure::{note, tell, Failure, DIFFERENT, DONE};
use crate::input::Input;
use crate::json::Object;
use crate::numbers::{self, grouped};
use crate::output::Results;
use crate::shown;

pub(super) static COMMAND: Command = Command {
    name: "diff",
    options: &[Opt::HEX, Opt::JSON, Opt::QUIET],
    operands: Operands::each(&["A", "B"]),
    help: include_str!("../help/diff.txt"),
    run,
};

/// A cell in which two pictures differ: its position, and the word of each.
type Difference = (Position, u32, u32);

fn run(given: &Given) -> Result<u8, Failure> {
    let first = Input::picture(&given.operands[0])?;
    let second = Input::picture(&given.operands[1])?;
    let (a, b) = (first.open()?, second.open()?);
    if let Some(difference) = other_dimensions(&a, &b) {
        return Err(other(Refusal::Other, [&first, &second], &difference));
    }
    let (words, others) = (a.expand(), b.expand());
    let mut differences = differences(&words, &others);
    let empty = other_empty(&a, &b);
    let differ = if given.has(&Opt::QUIET) {
        differences.next().is_some()
    } else {
        let count = put(given, [&a, &b], differences)?;
        told([&first, &second], empty.as_deref(), count, a.cells());
        count > 0
    };
    Ok(match differ || empty.is_some() {
        true => DIFFERENT,
        false => DONE,
    })
}

/// The cells whose words differ, in row order.
fn differences<'a>(words: &'a [u32], others: &'a [u32]) -> impl Iterator<Item = Difference> + 'a {
    let cells = (0..).zip(words.iter().zip(others));
    let differ = cells.filter(|(_, (word, other))| word != other);
    differ.map(|(position, (&word, &other))| (Position(position), word, other))
}

/// Puts a line for each difference, with `--json` one more for both pictures, and gives their number.
fn put(
    given: &Given,
    [a, b]: [&Archive<&[u8]>; 2],
    differences: impl Iterator<Item = Difference>,
) -> Result<u32, Failure> {
    let dimensions = a.dimensions();
    let (json, hex) = (given.has(&Opt::JSON), given.has(&Opt::HEX));
    let mut results = Results::open()?;
    let mut line = Vec::new();
    let mut count = 0;
    for difference in differences {
        line.clear();
        if json {
            line = object(dimensions, difference);
        } else {
            put_text(&mut line, dimensions, difference, hex);
        }
        results.put(&line)?;
        count += 1;
    }
    if json {
        results.put(&summary(a, b, count))?;
    }
    results.finish()?;
    Ok(count)
}

/// Puts the line of a difference: coordinates, and both words.
fn put_text(line: &mut Vec<u8>, dimensions: Dimensions, difference: Difference, hex: bool) {
    let (position, word, other) = difference;
    match dimensions.coordinates(position) {
        Ok(coordinates) => numbers::put_joined(line, &coordinates, b','),
        Err(_) => line.extend_from_slice(format!("@{}", position.0).as_bytes()),
    }
    let put = if hex { numbers::put_hex } else { numbers::put };
    for word in [word, other] {
        line.push(b' ');
        put(line, word);
    }
    line.push(b'\n');
}

/// The object of a difference.
fn object(dimensions: Dimensions, (position, word, other): Difference) -> Vec<u8> {
    placed(dimensions, position)
        .number("word_a", word.into())
        .number("word_b", other.into())
        .line()
}

/// The object of both pictures: cells, how many of them differ, and the empty words.
fn summary(a: &Archive<&[u8]>, b: &Archive<&[u8]>, count: u32) -> Vec<u8> {
    let mut members = Object::new();
    members
        .number("cells", a.cells().into())
        .number("differ", count.into())
        .number("empty_a", a.empty().into())
        .number("empty_b", b.empty().into());
    Object::new().object("summary", &members).line()
}

/// Tells in what the pictures differ on standard error.
fn told([first, second]: [&Input; 2], empty: Option<&str>, count: u32, cells: u32) {
    let second = shown::quoted(&second.path);
    if let Some(empty) = empty {
        note(
            &first.path,
            &format!("not the picture of {second}: {empty}"),
        );
    }
    if count > 0 {
        let (count, cells) = (grouped(count.into()), grouped(cells.into()));
        tell(&format!("{count} of {cells} cells differ\n"));
    }
}
