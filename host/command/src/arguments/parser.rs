//! Words of the command line into options and operands.

use std::ffi::{OsStr, OsString};
use std::os::unix::ffi::{OsStrExt, OsStringExt};

use crate::arguments::{nearest, Command, Given, Opt};
use crate::failure::Failure;
use crate::shown;

/// What the words of a command ask for.
#[derive(Debug)]
pub enum Request {
    /// The command's help.
    Help,
    /// To run the command on these.
    Run(Given),
}

/// Reads the words after a command's name.
pub fn parse(
    command: &'static Command,
    words: impl Iterator<Item = OsString>,
) -> Result<Request, Failure> {
    let mut parser = Parser {
        words: words.collect::<Vec<_>>().into_iter(),
        given: Given::new(command),
    };
    if parser.words()? {
        return Ok(Request::Help);
    }
    parser.given.operands_fit()?;
    Ok(Request::Run(parser.given))
}

struct Parser {
    words: std::vec::IntoIter<OsString>,
    given: Given,
}

impl Parser {
    /// Reads all words; true where help is asked for.
    fn words(&mut self) -> Result<bool, Failure> {
        let mut ended = false;
        while let Some(word) = self.words.next() {
            let bytes = word.as_bytes();
            let help = if ended || bytes == b"-" || !bytes.starts_with(b"-") {
                self.given.operands.push(word);
                false
            } else if bytes == b"--" {
                ended = true;
                false
            } else if bytes.starts_with(b"--") {
                self.long(&word)?
            } else {
                self.letters(&word)?
            };
            if help {
                return Ok(true);
            }
        }
        Ok(false)
    }

    /// Reads `--name`, `--name value` or `--name=value`; true for `--help`.
    fn long(&mut self, word: &OsStr) -> Result<bool, Failure> {
        let bytes = &word.as_bytes()[2..];
        let (name, value) = match bytes.iter().position(|&byte| byte == b'=') {
            Some(at) => (&bytes[..at], Some(&bytes[at + 1..])),
            None => (bytes, None),
        };
        let known = self.given.command().all_options();
        let found = known.into_iter().find(|o| o.long.as_bytes() == name);
        let Some(option) = found else {
            return Err(self.unknown(OsStr::from_bytes(name)));
        };
        match (option.value, value) {
            (None, None) => self.flag(option),
            (None, Some(_)) => {
                Err(self.usage(format!("the option --{} takes no value", option.long)))
            }
            (Some(_), Some(value)) => self.valued(option, OsString::from_vec(value.to_vec())),
            (Some(_), None) => self.next_as_value(option),
        }
    }

    /// Reads letters after one hyphen; true for `-h`.
    fn letters(&mut self, word: &OsStr) -> Result<bool, Failure> {
        let letters = word.as_bytes();
        for at in 1..letters.len() {
            let letter = letters[at] as char;
            let known = self.given.command().all_options();
            let found = known.into_iter().find(|o| o.short == Some(letter));
            let Some(option) = found else {
                return Err(self.usage(format!("unknown option {}", shown::quoted(word))));
            };
            if option.value.is_none() {
                if self.flag(option)? {
                    return Ok(true);
                }
                continue;
            }
            let rest = &letters[at + 1..];
            if rest.is_empty() {
                return self.next_as_value(option);
            }
            if rest[0] == b'=' {
                let (long, value) = (option.long, option.value.unwrap_or(""));
                let message = format!("write '-{letter} {value}' or '--{long}={value}'");
                return Err(self.usage(format!("{}: {message}", shown::quoted(word))));
            }
            return self.valued(option, OsString::from_vec(rest.to_vec()));
        }
        Ok(false)
    }

    /// Takes an option without a value; true for `--help`.
    fn flag(&mut self, option: &'static Opt) -> Result<bool, Failure> {
        if *option == Opt::HELP {
            return Ok(true);
        }
        self.valued(option, OsString::new())
    }

    /// Takes the next word as an option's value.
    fn next_as_value(&mut self, option: &'static Opt) -> Result<bool, Failure> {
        let what = option.value.unwrap_or("a value");
        let written = option.written();
        match self.words.next() {
            None => Err(self.usage(format!("the option {written} wants {what}"))),
            Some(word) if self.is_option(&word) => Err(self.usage(format!(
                "the option {written} wants {what}, but '{0}' follows; write '--{1}={0}' if that is its value",
                word.to_string_lossy().escape_debug(),
                option.long
            ))),
            Some(word) => self.valued(option, word),
        }
    }

    /// Whether a word is an option and no value.
    fn is_option(&self, word: &OsStr) -> bool {
        let bytes = word.as_bytes();
        let letter = |o: &Opt| o.short.is_some_and(|l| bytes == [b'-', l as u8]);
        bytes.starts_with(b"--") || self.given.command().all_options().any(letter)
    }

    /// Takes an option with its value.
    fn valued(&mut self, option: &'static Opt, value: OsString) -> Result<bool, Failure> {
        if self.given.has(option) {
            return Err(self.usage(format!("the option {} is given twice", option.written())));
        }
        self.given.values.push((option, value));
        Ok(false)
    }

    /// An unknown option, with the one that may be meant.
    fn unknown(&self, name: &OsStr) -> Failure {
        let mut word = OsString::from("--");
        word.push(name);
        let known = self.given.command().all_options().map(|o| o.long);
        let meant = name.to_str().and_then(|name| nearest(name, known));
        let hint = meant.map_or(String::new(), |name| format!("; did you mean --{name}?"));
        self.usage(format!("unknown option {}{hint}", shown::quoted(&word)))
    }

    fn usage(&self, message: String) -> Failure {
        self.given.command().usage(message)
    }
}
