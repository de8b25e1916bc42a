//! Lines of text, from standard input or from a file that an option names.

use std::ffi::{OsStr, OsString};
use std::fs::File;
use std::io::{self, BufRead, BufReader, Read};
use std::os::fd::AsFd;
use std::os::unix::ffi::OsStrExt;

use crate::arguments::Given;
use crate::failure::Failure;
use crate::input::unread;
use crate::place::{Outside, Place};
use crate::{shown, started};

/// The most bytes of a line; no line that means something has as many. A comment may be longer.
const LONGEST: usize = 200;

/// A text, line by line. A line ends with a newline, or a carriage return and a newline; the last may end without.
pub struct Lines<'a> {
    given: &'a Given,
    path: OsString,
    source: BufReader<File>,
    number: u64,
    line: Vec<u8>,
    /// Whether the line was read to its end.
    whole: bool,
}

impl<'a> Lines<'a> {
    /// The lines of a file; `-` is standard input. One that was closed from the start would pass for a text without lines, and is refused.
    pub fn open(given: &'a Given, path: &OsStr) -> Result<Lines<'a>, Failure> {
        let source = if path == "-" {
            standard_input()?
        } else {
            File::open(path).map_err(|error| unread(path, &error))?
        };
        Ok(Lines {
            given,
            path: path.to_owned(),
            source: BufReader::with_capacity(1 << 16, source),
            number: 0,
            line: Vec::new(),
            whole: true,
        })
    }

    /// Goes to the next line; false at the end of the text.
    pub fn read_next(&mut self) -> Result<bool, Failure> {
        let found = self.read().map_err(|error| unread(&self.path, &error))?;
        self.short_enough()?;
        Ok(found)
    }

    /// Goes to the next line that is not blank and does not begin with `#`; false at the end of the text.
    pub fn read_next_filled(&mut self) -> Result<bool, Failure> {
        loop {
            let found = self.read().map_err(|error| unread(&self.path, &error))?;
            match self.line.iter().find(|byte| !is_blank(byte)) {
                Some(b'#') => {
                    let passed = self.pass_over();
                    passed.map_err(|error| unread(&self.path, &error))?;
                }
                None if found && self.whole => {}
                _ => {
                    self.short_enough()?;
                    return Ok(found);
                }
            }
        }
    }

    /// Reads a line, of one that is too long no more than shows that; false at the end of the text.
    fn read(&mut self) -> io::Result<bool> {
        self.line.clear();
        let mut source = (&mut self.source).take(LONGEST as u64 + 2);
        let read = source.read_until(b'\n', &mut self.line)?;
        self.whole = source.limit() > 0 || self.line.ends_with(b"\n");
        self.number += u64::from(read > 0);
        for end in [b'\n', b'\r'] {
            if self.line.last() == Some(&end) {
                self.line.pop();
            }
        }
        Ok(read > 0)
    }

    /// Passes over what is left of a line that is too long.
    fn pass_over(&mut self) -> io::Result<()> {
        if !self.whole {
            self.source.skip_until(b'\n')?;
        }
        Ok(())
    }

    /// Refuses a line that is too long.
    fn short_enough(&self) -> Result<(), Failure> {
        if self.whole {
            return Ok(());
        }
        Err(self.wrong(&format!("the line has more than {LONGEST} bytes")))
    }

    /// The line without its end.
    pub fn line(&self) -> &[u8] {
        &self.line
    }

    /// The line as it is shown in messages.
    pub fn quoted(&self) -> String {
        shown::quoted(OsStr::from_bytes(&self.line))
    }

    /// The words of the line: blanks and tabs stand before, between and after them.
    pub fn words(&self) -> impl Iterator<Item = &OsStr> {
        let words = self.line.split(is_blank).filter(|word| !word.is_empty());
        words.map(OsStr::from_bytes)
    }

    /// The number of the line, from 1.
    pub fn number(&self) -> u64 {
        self.number
    }

    /// Whether the next line has not come yet: who waits for answers to the lines before should have them first.
    pub fn may_wait(&self) -> bool {
        !self.source.buffer().contains(&b'\n')
    }

    /// The place that a word of the line is.
    pub fn place(&self, word: &OsStr) -> Result<Place, Failure> {
        let place = word.to_str().map_or_else(|| Err(not_text(word)), Place::of);
        place.map_err(|wrong| self.wrong(&wrong))
    }

    /// The failure that the line is not understood.
    pub fn wrong(&self, message: &str) -> Failure {
        self.wrong_at(self.number, message)
    }

    /// The failure that a line is not understood.
    pub fn wrong_at(&self, number: u64, message: &str) -> Failure {
        let place = self.named(number);
        self.given.usage(format!("{place}: {message}"))
    }

    /// The failure that the place of a line is none in the picture of a file.
    pub fn outside(&self, number: u64, file: &OsStr, outside: Outside) -> Failure {
        match outside {
            Outside::Count(message) => self.wrong_at(number, &message),
            Outside::Refused(refusal, message) => {
                let message = format!("{}: {message}", self.named(number));
                Failure::refused(file, refusal, message)
            }
        }
    }

    /// A line as it is named in messages.
    fn named(&self, number: u64) -> String {
        let text = match self.path.to_str() {
            Some("-") => "standard input".to_string(),
            _ => shown::quoted(&self.path),
        };
        format!("{text}, line {number}")
    }
}

/// Standard input as a file: the library's own takes one that cannot be read for one that is empty.
fn standard_input() -> Result<File, Failure> {
    if started::input_closed() {
        let message = "is closed; use /dev/null for a text without lines";
        return Err(Failure::file("standard input", message));
    }
    let descriptor = io::stdin().as_fd().try_clone_to_owned();
    let file = descriptor.map_err(|error| unread(OsStr::new("-"), &error))?;
    Ok(File::from(file))
}

/// Whether a byte stands between words.
fn is_blank(byte: &u8) -> bool {
    matches!(byte, b' ' | b'\t')
}

/// What is said of a word that is not UTF-8.
pub fn not_text(word: &OsStr) -> String {
    format!("{} is not understood", shown::quoted(word))
}
