//! `make`: the file of a picture's raw words, or of the list of its stored cells.

mod listed;

use std::ffi::OsStr;

use radar_archive::{calls, Refusal, Setting, MOST_CELLS};

use crate::arguments::{Command, Given, Operands, Opt};
use crate::commands::put_out;
use crate::failure::Failure;
use crate::input::{contents, Contents};
use crate::numbers::{self, grouped};
use crate::{refused, shown};

pub(super) static COMMAND: Command = Command {
    name: "make",
    options: &[
        Opt::LIST,
        Opt::DIMS,
        Opt::EMPTY,
        Opt::KIND,
        Opt::WIDTH,
        Opt::STEP,
        Opt::OUTPUT,
        Opt::FORCE,
        Opt::MAX_LENGTH,
    ],
    operands: Operands {
        names: &["RAW"],
        optional: 1,
        many: false,
    },
    help: include_str!("../help/make.txt"),
    run,
};

fn run(given: &Given) -> Result<u8, Failure> {
    let path = source(given)?;
    let made = Made {
        extents: extents(given)?,
        numbers: given.setting()?,
        empty: given.number(&Opt::EMPTY)?.unwrap_or(0),
        most: given.number(&Opt::MAX_LENGTH)?,
    };
    let output = put_out::output(given)?;
    let file = if given.has(&Opt::LIST) {
        made.of_list(given, path)?
    } else {
        made.of_raw(path)?
    };
    put_out::put(output, &file)
}

/// What the file is made of: RAW, or the list that `--list` names.
fn source(given: &Given) -> Result<&OsStr, Failure> {
    match (given.value(&Opt::LIST), given.operands.first()) {
        (Some(list), None) if list.is_empty() => {
            Err(given.bad_value(&Opt::LIST, "'' names no file"))
        }
        (Some(list), None) => Ok(list),
        (None, Some(raw)) => Ok(raw),
        (None, None) => Err(given.usage("'make' wants RAW, or --list LIST".to_string())),
        (Some(_), Some(raw)) => {
            let raw = shown::quoted(raw);
            let message = format!("the words come from --list; leave out RAW, {raw}, or --list");
            Err(given.usage(message))
        }
    }
}

/// A file to be made.
struct Made {
    extents: Vec<u32>,
    /// The numbers of the setting.
    numbers: [u32; 3],
    empty: u32,
    /// The most bytes that it may have.
    most: Option<u32>,
}

impl Made {
    /// The file of raw words.
    fn of_raw(&self, path: &OsStr) -> Result<Vec<u8>, Failure> {
        let (words, length) = match contents(path, longest(&self.extents))? {
            Contents::Whole(bytes) => (words(&bytes), grouped(bytes.len() as u64)),
            // No words, which no picture has: the engine says what is refused first.
            Contents::Longer { length, .. } => (Vec::new(), length),
        };
        self.of_words(path, &words, |extents| unlike(extents, &length))
    }

    /// The file of words. `unlike` tells why words that are not as many as the cells of the extents are refused with 7.
    fn of_words(
        &self,
        path: &OsStr,
        words: &[u32],
        unlike: impl FnOnce(&[u32]) -> String,
    ) -> Result<Vec<u8>, Failure> {
        let setting = put_out::setting(path, self.numbers)?;
        let count = self.extents.len() as u32;
        let four = filled(&self.extents);
        let stored = words.iter().filter(|&&word| word != self.empty).count();
        put_out::file(
            path,
            setting.longest_file(stored),
            self.most,
            |destination| calls::make(setting, count, &four, self.empty, words, destination),
            |refusal| self.why(refusal, setting, unlike),
        )
    }

    /// Why the file is not made, and what to do.
    fn why(
        &self,
        refusal: Refusal,
        setting: Setting,
        unlike: impl FnOnce(&[u32]) -> String,
    ) -> String {
        match refusal {
            Refusal::Extent => refused::extents(&self.extents),
            Refusal::Picture => unlike(&self.extents),
            refusal => refused::setting(refusal, setting),
        }
    }
}

/// The extents that `--dims` gives.
fn extents(given: &Given) -> Result<Vec<u32>, Failure> {
    let text = given.required_text(&Opt::DIMS)?;
    let is_decimal = |part: &str| !part.is_empty() && part.bytes().all(|b| b.is_ascii_digit());
    if !text.split('x').all(is_decimal) {
        let text = shown::quoted(OsStr::new(text));
        let message = format!("{text} are no extents; extents are decimal, as in 16x1024x1024");
        return Err(given.bad_value(&Opt::DIMS, &message));
    }
    let extents: Result<Vec<u32>, String> = text.split('x').map(numbers::of).collect();
    extents.map_err(|wrong| given.bad_value(&Opt::DIMS, &wrong))
}

/// Up to four extents filled up to four with 1; more as they are, for the engine to refuse.
fn filled(extents: &[u32]) -> Vec<u32> {
    let mut four = extents.to_vec();
    four.resize(extents.len().max(4), 1);
    four
}

/// The cells of these extents, at most as many as a picture has.
fn cells(extents: &[u32]) -> u64 {
    let cells = extents
        .iter()
        .fold(1, |cells: u64, &extent| cells.saturating_mul(extent.into()));
    cells.min(MOST_CELLS.into())
}

/// The most raw bytes that these extents may have.
fn longest(extents: &[u32]) -> u64 {
    4 * cells(extents)
}

/// The words of raw bytes. Bytes that are not whole words give none, which no picture has.
fn words(bytes: &[u8]) -> Vec<u32> {
    if bytes.len() % 4 != 0 {
        return Vec::new();
    }
    let word = |bytes: &[u8]| u32::from_le_bytes([bytes[0], bytes[1], bytes[2], bytes[3]]);
    bytes.chunks_exact(4).map(word).collect()
}

/// Why raw words of a length are not a picture of the extents.
fn unlike(extents: &[u32], length: &str) -> String {
    let (text, wanted) = (numbers::joined(extents, "x"), longest(extents));
    let (cells, wanted) = (grouped(wanted / 4), grouped(wanted));
    format!("the raw words have {length} bytes; --dims {text} wants {cells} words, {wanted} bytes")
}
