//! `make --list`: the file of the text that `list` prints.

use std::ffi::OsStr;

use radar_archive::{Kind, Refusal};

use super::{cells, Made};
use crate::arguments::Given;
use crate::failure::Failure;
use crate::lines::Lines;
use crate::numbers::{self, grouped};

/// The first line of a list.
struct Head {
    cells: u32,
    stored: u32,
}

impl Made {
    /// The file of a list.
    pub(super) fn of_list(&self, given: &Given, path: &OsStr) -> Result<Vec<u8>, Failure> {
        let mut lines = Lines::open(given, path)?;
        let head = head(&mut lines)?;
        let unlike = |extents: &[u32]| unlike(extents, head.cells);
        // No words, which no picture has: what is refused for any words is refused before the list is read.
        match self.of_words(path, &[], unlike) {
            Err(Failure::Refused { fault, .. })
                if fault.refusal == Refusal::Picture
                    && u64::from(head.cells) == cells(&self.extents) => {}
            refused => return refused,
        }
        let words = self.words(&mut lines, &head)?;
        self.of_words(path, &words, unlike)
    }

    /// The words of all cells: those of the stored cells' lines, and the empty word.
    fn words(&self, lines: &mut Lines, head: &Head) -> Result<Vec<u32>, Failure> {
        let mut words = vec![self.empty; head.cells as usize];
        let mut least = 0;
        for rank in 0..head.stored {
            if !lines.read_next()? {
                let stored = head.stored;
                let message = format!("the list ends here, after {rank} of {stored} stored cells");
                return Err(lines.wrong(&message));
            }
            let cell = three(lines.line()).ok_or_else(|| lines.wrong(&not_a_cell(lines)))?;
            self.fits(cell, rank, least, head.cells)
                .map_err(|wrong| lines.wrong(&wrong))?;
            let [_, position, word] = cell;
            words[position as usize] = word;
            least = position + 1;
        }
        if lines.read_next()? {
            let stored = head.stored;
            return Err(lines.wrong(&format!(
                "a line too many: the first line says {stored} stored cells"
            )));
        }
        Ok(words)
    }

    /// Whether a line's rank, position and word are those of the stored cell of a rank, whose position is no lower than `least`.
    fn fits(
        &self,
        [found, position, word]: [u32; 3],
        rank: u32,
        least: u32,
        cells: u32,
    ) -> Result<(), String> {
        if found != rank {
            return Err(format!("the rank is {found}, but rank {rank} is next"));
        }
        if position >= cells {
            return Err(format!("position {position} is none of the {cells} cells"));
        }
        if position < least {
            let last = least - 1;
            return Err(format!(
                "position {position} does not rise above {last}, the one before"
            ));
        }
        if word == self.empty {
            return Err(format!(
                "the word {word} is the empty word, which no stored cell has; give the picture's own with --empty"
            ));
        }
        Ok(())
    }
}

/// The first line: kind, cells and stored cells.
fn head(lines: &mut Lines) -> Result<Head, Failure> {
    const WANTED: &str = "a list begins with KIND CELLS STORED, as 'list' prints it";
    if !lines.read_next()? {
        return Err(lines.wrong_at(1, &format!("the text is empty; {WANTED}")));
    }
    let line = lines.quoted();
    if lines.line().starts_with(b"refused ") {
        let message = format!("{line} is the list of a file that was refused, and has no picture");
        return Err(lines.wrong(&message));
    }
    let Some([kind, cells, stored]) = three(lines.line()) else {
        return Err(lines.wrong(&format!("{line} is no first line; {WANTED}")));
    };
    if Kind::of_number(kind).is_none() || stored > cells {
        let message = format!("{line} is the first line of no list: the kinds are 1 to 6, and no more cells are stored than there are");
        return Err(lines.wrong(&message));
    }
    Ok(Head { cells, stored })
}

/// What is said of a line that is not that of a stored cell.
fn not_a_cell(lines: &Lines) -> String {
    let line = lines.quoted();
    format!("{line} is not RANK POSITION WORD, three decimal numbers of 32 bits")
}

/// The three numbers of a line, as `list` prints them: decimal, a blank between two.
fn three(line: &[u8]) -> Option<[u32; 3]> {
    let mut words = line.split(|&byte| byte == b' ');
    let mut number = || words.next().and_then(decimal);
    let three = [number()?, number()?, number()?];
    words.next().is_none().then_some(three)
}

/// The number of decimal digits without a leading zero.
fn decimal(digits: &[u8]) -> Option<u32> {
    let is_plain = digits.iter().all(u8::is_ascii_digit) && !digits.starts_with(b"0");
    if !is_plain && digits != b"0" {
        return None;
    }
    std::str::from_utf8(digits).ok()?.parse().ok()
}

/// Why a list of so many cells is not one of a picture of the extents.
fn unlike(extents: &[u32], listed: u32) -> String {
    let (text, wanted) = (numbers::joined(extents, "x"), grouped(cells(extents)));
    let listed = grouped(listed.into());
    format!("the list is of a picture of {listed} cells; --dims {text} has {wanted}")
}
