//! `shorter`: the shorter of two files of one picture.

use radar_archive::{Archive, Dimensions, Position, Refusal};

use crate::arguments::{Command, Given, Operands, Opt};
use crate::commands::lookup::put_line;
use crate::failure::{Failure, DONE};
use crate::input::Input;
use crate::json::Object;
use crate::output::Results;
use crate::{numbers, place, shown};

pub(super) static COMMAND: Command = Command {
    name: "shorter",
    options: &[Opt::JSON],
    operands: Operands::each(&["A", "B"]),
    help: include_str!("../help/shorter.txt"),
    run,
};

fn run(given: &Given) -> Result<u8, Failure> {
    let first = Input::picture(&given.operands[0])?;
    let second = Input::picture(&given.operands[1])?;
    let (a, b) = (first.open()?, second.open()?);
    let shorter = a
        .shorter(&b)
        .map_err(|refusal| other(refusal, [&first, &second], &difference(&a, &b)))?;
    let is_first = std::ptr::eq(shorter.bytes(), a.bytes());
    let path = if is_first { &first.path } else { &second.path };
    if given.has(&Opt::JSON) {
        return put_line(&Object::new().path("shorter", path).line());
    }
    let mut results = Results::open()?;
    results.put_path(path, "\n")?;
    results.finish()?;
    Ok(DONE)
}

/// The failure that two files are not of one picture.
pub(super) fn other(refusal: Refusal, files: [&Input; 2], difference: &str) -> Failure {
    let [first, second] = files;
    let second = shown::quoted(&second.path);
    let message = format!("not the picture of {second}: {difference}");
    Failure::refused(&first.path, refusal, message)
}

/// In which dimensions two pictures differ, if they do.
pub(super) fn other_dimensions(a: &Archive<&[u8]>, b: &Archive<&[u8]>) -> Option<String> {
    let differ = a.dimensions() != b.dimensions();
    let (a, b) = (extents(a.dimensions()), extents(b.dimensions()));
    differ.then(|| format!("the dimensions are {a} and {b}"))
}

/// Which empty words two pictures have, if they differ.
pub(super) fn other_empty(a: &Archive<&[u8]>, b: &Archive<&[u8]>) -> Option<String> {
    let (a, b) = (a.empty(), b.empty());
    (a != b).then(|| format!("the empty words are {a} and {b}"))
}

/// In what the pictures of two files differ.
fn difference(a: &Archive<&[u8]>, b: &Archive<&[u8]>) -> String {
    if let Some(told) = other_dimensions(a, b).or_else(|| other_empty(a, b)) {
        return told;
    }
    let (words, others) = (a.expand(), b.expand());
    match words
        .iter()
        .zip(&others)
        .position(|(word, other)| word != other)
    {
        Some(at) => {
            let (word, other) = (words[at], others[at]);
            let place = place::written(Position(at as u32), a.dimensions());
            format!("the words at {place} are {word} and {other}")
        }
        None => "the pictures differ".to_string(),
    }
}

/// Extents as `--dims` takes them.
fn extents(dimensions: Dimensions) -> String {
    numbers::joined(dimensions.extents(), "x")
}
