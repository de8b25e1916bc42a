//! `box`: the words of a box.

use crate::arguments::{Command, Given, Operands, Opt};
use crate::commands::expand::raw;
use crate::commands::put_out;
use crate::failure::{Failure, DONE};
use crate::input::Input;
use crate::json::Object;
use crate::output::{Content, Results};
use crate::place::Place;
use crate::{numbers, refused};

pub(super) static COMMAND: Command = Command {
    name: "box",
    options: &[
        Opt::LOW,
        Opt::HIGH,
        Opt::HEX,
        Opt::JSON,
        Opt::OUTPUT,
        Opt::FORCE,
    ],
    operands: Operands::each(&["FILE"]),
    help: include_str!("../help/box.txt"),
    run,
};

fn run(given: &Given) -> Result<u8, Failure> {
    let (low, high) = (given.place(&Opt::LOW)?, given.place(&Opt::HIGH)?);
    let output = match given.value(&Opt::OUTPUT) {
        Some(name) => {
            alone(given)?;
            Some(put_out::look(given, name)?)
        }
        None => None,
    };
    let file = Input::picture(&given.operands[0])?;
    let archive = file.open()?;
    let dimensions = archive.dimensions();
    let corner = |place: Place, option| {
        place
            .coordinates(dimensions)
            .map_err(|outside| given.outside(option, &file.path, outside))
    };
    let (low, high) = (corner(low, &Opt::LOW)?, corner(high, &Opt::HIGH)?);
    let words = archive.box_words(&low, &high).map_err(|refusal| {
        let message = refused::corners(&low, &high);
        Failure::refused(&file.path, refusal, message)
    })?;
    match output {
        Some(output) => output.put(&raw(&words), Content::Raw)?,
        None => put(given, &words, &sides(&low, &high))?,
    }
    Ok(DONE)
}

/// Refuses the options of text beside `-o`.
fn alone(given: &Given) -> Result<(), Failure> {
    let text = [&Opt::JSON, &Opt::HEX].into_iter().find(|o| given.has(o));
    match text {
        Some(option) => {
            let written = option.written();
            let message = format!("-o puts out raw words; leave out -o or {written}");
            Err(given.usage(message))
        }
        None => Ok(()),
    }
}

/// The extents of the box itself.
fn sides(low: &[u32], high: &[u32]) -> Vec<u32> {
    let side = |(low, high): (&u32, &u32)| high - low + 1;
    low.iter().zip(high).map(side).collect()
}

/// Puts the words on standard output.
fn put(given: &Given, words: &[u32], sides: &[u32]) -> Result<(), Failure> {
    let mut results = Results::open()?;
    if given.has(&Opt::JSON) {
        let mut object = Object::new();
        object.numbers("dimensions", sides).numbers("words", words);
        results.put(&object.line())?;
    } else {
        rows(&mut results, words, sides, given.has(&Opt::HEX))?;
    }
    results.finish()
}

/// Puts a line for each row, and an empty line between planes.
fn rows(results: &mut Results, words: &[u32], sides: &[u32], hex: bool) -> Result<(), Failure> {
    let row = sides.last().map_or(1, |&side| side as usize);
    let rows_of_plane = match sides {
        [.., rows, _] => *rows as usize,
        _ => 1,
    };
    let put = if hex { numbers::put_hex } else { numbers::put };
    let mut line = Vec::new();
    for (index, words) in words.chunks(row).enumerate() {
        line.clear();
        if index > 0 && index % rows_of_plane == 0 {
            line.push(b'\n');
        }
        for (at, &word) in words.iter().enumerate() {
            if at > 0 {
                line.push(b' ');
            }
            put(&mut line, word);
        }
        line.push(b'\n');
        results.put(&line)?;
    }
    Ok(())
}
