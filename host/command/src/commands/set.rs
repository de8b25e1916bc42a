//! `set`: one cell written, or many at once.

mod writes;

use radar_archive::{Archive, Refusal};

use crate::arguments::{Command, Given, Operands, Opt};
use crate::commands::lookup::place_in;
use crate::commands::put_out;
use crate::failure::Failure;
use crate::input::Input;
use crate::numbers;

pub(super) static COMMAND: Command = Command {
    name: "set",
    options: &[Opt::AT, Opt::WORD, Opt::OUTPUT, Opt::FORCE, Opt::MAX_LENGTH],
    operands: Operands::each(&["FILE"]),
    help: include_str!("../help/set.txt"),
    run,
};

fn run(given: &Given) -> Result<u8, Failure> {
    if given.is_input(&Opt::AT)? {
        return writes::run(given);
    }
    let place = given.place(&Opt::AT)?;
    given.required(&Opt::WORD)?;
    let word = word(given)?.unwrap_or(Word::Empty);
    let most = given.number(&Opt::MAX_LENGTH)?;
    let output = put_out::output(given)?;
    let file = Input::picture(&given.operands[0])?;
    let archive = file.open()?;
    let position = place_in(given, &Opt::AT, &file, &archive, &place)?;
    let word = word.in_picture(archive.empty());
    let stored = archive
        .stored_count()
        .saturating_add(1)
        .min(archive.cells());
    let written = put_out::file(
        &file.path,
        archive.setting().longest_file(stored as usize),
        most,
        |destination| archive.write_into(position, word, destination),
        |refusal| why(refusal, &archive, "this cell"),
    )?;
    put_out::put(output, &written)
}

/// A word to be written.
#[derive(Clone, Copy, Debug, PartialEq, Eq)]
enum Word {
    /// The picture's empty word.
    Empty,
    /// This word.
    Number(u32),
}

impl Word {
    /// Reads a word, or says what is wrong with it.
    fn of(text: &str) -> Result<Word, String> {
        match text {
            "empty" => Ok(Word::Empty),
            text => numbers::of(text)
                .map(Word::Number)
                .map_err(|wrong| format!("{wrong}, or the word empty")),
        }
    }

    /// The word itself, in a picture of this empty word.
    fn in_picture(self, empty: u32) -> u32 {
        match self {
            Word::Empty => empty,
            Word::Number(word) => word,
        }
    }
}

/// The word of `--word`, where it is given.
fn word(given: &Given) -> Result<Option<Word>, Failure> {
    let bad = |wrong: String| given.bad_value(&Opt::WORD, &wrong);
    let text = given.text(&Opt::WORD)?;
    text.map(|text| Word::of(text).map_err(bad)).transpose()
}

/// Why cells are not written, and what to do.
fn why(refusal: Refusal, archive: &Archive<&[u8]>, written: &str) -> String {
    let setting = archive.setting();
    let (width, step) = (setting.width, setting.step);
    match refusal {
        Refusal::Unfit => format!(
            "with {written} written, an offset does not fit width {width} at step {step}; 'change' the file to another width, step or kind first"
        ),
        _ => format!("{written} cannot be written"),
    }
}
