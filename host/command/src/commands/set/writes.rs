//! `set --at -`: the cells that standard input has, all written at once.

use std::ffi::OsStr;

use radar_archive::{Archive, Picture, MOST_CELLS};

use super::{why, word, Word};
use crate::arguments::{Given, Opt};
use crate::commands::put_out;
use crate::failure::Failure;
use crate::input::Input;
use crate::lines::{not_text, Lines};
use crate::numbers::grouped;
use crate::place::Place;

/// A cell to be written, as a line has it.
struct Write {
    line: u64,
    place: Place,
    word: Word,
}

/// Writes all cells at once. The lines are read before the file, so that it is not locked while they are waited for.
pub(super) fn run(given: &Given) -> Result<u8, Failure> {
    let word = word(given)?;
    let most = given.number(&Opt::MAX_LENGTH)?;
    let mut output = put_out::output(given)?;
    let mut lines = Lines::open(given, OsStr::new("-"))?;
    let writes = all(&mut lines, word)?;
    output.lock()?;
    let file = Input::picture(&given.operands[0])?;
    let archive = file.open()?;
    let picture = written(&file, &archive, &lines, &writes)?;
    let written = put_out::file(
        &file.path,
        archive.setting().longest_file(picture.stored_count()),
        most,
        |destination| picture.make_into(archive.setting(), destination),
        |refusal| why(refusal, &archive, "these cells"),
    )?;
    put_out::put(output, &written)
}

/// The writes of all lines, no more than a picture may have cells.
fn all(lines: &mut Lines, word: Option<Word>) -> Result<Vec<Write>, Failure> {
    let mut writes = Vec::new();
    while lines.read_next_filled()? {
        if writes.len() == MOST_CELLS as usize {
            let most = grouped(MOST_CELLS.into());
            let message = format!("more than {most} cells are written, the most that a picture has; write them in several calls");
            return Err(lines.wrong(&message));
        }
        writes.push(write(lines, word)?);
    }
    Ok(writes)
}

/// The write of a line: a place and its word, or with `--word` a place alone.
fn write(lines: &Lines, given: Option<Word>) -> Result<Write, Failure> {
    let mut words = lines.words();
    let (place, word) = match (words.next(), words.next(), words.next(), given) {
        (Some(place), None, None, Some(word)) => (lines.place(place)?, word),
        (Some(place), Some(text), None, None) => (lines.place(place)?, read(lines, text)?),
        (_, _, _, Some(_)) => {
            return Err(lines.wrong("a line is one place alone, as --word has the word"));
        }
        (_, None, _, None) => {
            return Err(lines
                .wrong("the word is missing; a line is PLACE WORD, or a place alone with --word"));
        }
        _ => return Err(lines.wrong("a line is PLACE WORD, and nothing after them")),
    };
    let line = lines.number();
    Ok(Write { line, place, word })
}

/// The word that a word of a line is.
fn read(lines: &Lines, text: &OsStr) -> Result<Word, Failure> {
    let word = text.to_str().map_or_else(|| Err(not_text(text)), Word::of);
    word.map_err(|wrong| lines.wrong(&wrong))
}

/// The picture of an opened file with the cells written, in the order of their lines.
fn written(
    file: &Input,
    archive: &Archive<&[u8]>,
    lines: &Lines,
    writes: &[Write],
) -> Result<Picture, Failure> {
    let mut picture = archive.picture();
    for write in writes {
        let position = write
            .place
            .position(picture.dimensions)
            .map_err(|outside| lines.outside(write.line, &file.path, outside))?;
        picture.words[position.0 as usize] = write.word.in_picture(picture.empty);
    }
    Ok(picture)
}
