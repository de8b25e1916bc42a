//! The options and operands that were given, and what they mean.

use std::ffi::{OsStr, OsString};

use radar_archive::Kind;

use crate::arguments::{nearest, Command, Opt};
use crate::failure::Failure;
use crate::place::{Outside, Place};
use crate::{numbers, shown};

/// The options and operands that were given to a command.
#[derive(Debug)]
pub struct Given {
    command: &'static Command,
    pub(super) values: Vec<(&'static Opt, OsString)>,
    /// The operands in order.
    pub operands: Vec<OsString>,
}

impl Given {
    /// Nothing given yet.
    pub(super) fn new(command: &'static Command) -> Given {
        Given {
            command,
            values: Vec::new(),
            operands: Vec::new(),
        }
    }

    /// The command.
    pub fn command(&self) -> &'static Command {
        self.command
    }

    /// A usage error of the command.
    pub fn usage(&self, message: String) -> Failure {
        self.command.usage(message)
    }

    /// Whether an option is given.
    pub fn has(&self, option: &Opt) -> bool {
        self.value(option).is_some()
    }

    /// An option's value.
    pub fn value(&self, option: &Opt) -> Option<&OsStr> {
        let found = self.values.iter().find(|(given, _)| *given == option);
        found.map(|(_, value)| value.as_os_str())
    }

    /// The value of an option that must be given.
    pub fn required(&self, option: &Opt) -> Result<&OsStr, Failure> {
        let (name, written) = (self.command.name, option.written());
        let what = option.value.unwrap_or("");
        self.value(option)
            .ok_or_else(|| self.usage(format!("'{name}' wants {written} {what}")))
    }

    /// Holds the operands to the number that the command takes, and `-` to one of them.
    pub(super) fn operands_fit(&self) -> Result<(), Failure> {
        let takes = self.command.operands;
        let (count, names) = (self.operands.len(), takes.names);
        if count < names.len() - takes.optional {
            let missing = names[count..].join(" and ");
            return Err(self.usage(format!("'{}' wants {missing}", self.command.name)));
        }
        if count > names.len() && !takes.many {
            let extra = shown::quoted(&self.operands[names.len()]);
            let wants = match names {
                [] => "no operand".to_string(),
                [name] => format!("one {name}"),
                names => names.join(" and "),
            };
            let name = self.command.name;
            return Err(self.usage(format!("'{name}' takes {wants}; {extra} is one too many")));
        }
        if self.operands.iter().any(|operand| operand.is_empty()) {
            return Err(self.usage("an operand is '', which names no file".to_string()));
        }
        if self.operands.iter().filter(|o| *o == "-").count() > 1 {
            return Err(self.usage("'-', standard input, may be given once only".to_string()));
        }
        Ok(())
    }

    /// Whether an option's value is `-`, standard input, which no operand may be then.
    pub fn is_input(&self, option: &Opt) -> Result<bool, Failure> {
        let is_input = self.value(option).is_some_and(|value| value == "-");
        if is_input && self.operands.iter().any(|operand| operand == "-") {
            let (file, option) = (self.command.operands.names[0], option.written());
            let message = format!("{file} and {option} are both '-', standard input; name a file");
            return Err(self.usage(message));
        }
        Ok(is_input)
    }

    /// Whether standard input is read, by an operand or by an option.
    pub fn reads_input(&self) -> bool {
        let by_option = |option| self.value(option).is_some_and(|value| value == "-");
        let by_operand = self.operands.iter().any(|operand| operand == "-");
        by_operand || [&Opt::AT, &Opt::LIST].into_iter().any(by_option)
    }

    /// A usage error about an option's value.
    pub fn bad_value(&self, option: &Opt, message: &str) -> Failure {
        self.usage(format!("{}: {message}", option.written()))
    }

    /// An option's value as text.
    pub fn text(&self, option: &Opt) -> Result<Option<&str>, Failure> {
        let Some(value) = self.value(option) else {
            return Ok(None);
        };
        let bad = || {
            let message = format!("{} is not understood", shown::quoted(value));
            self.bad_value(option, &message)
        };
        value.to_str().ok_or_else(bad).map(Some)
    }

    /// The text of an option that must be given.
    pub fn required_text(&self, option: &Opt) -> Result<&str, Failure> {
        self.required(option)?;
        Ok(self.text(option)?.unwrap_or(""))
    }

    /// A number handed in by an option.
    pub fn number(&self, option: &Opt) -> Result<Option<u32>, Failure> {
        let number = |text| numbers::of(text).map_err(|wrong| self.bad_value(option, &wrong));
        self.text(option)?.map(number).transpose()
    }

    /// A number that must be given.
    pub fn required_number(&self, option: &Opt) -> Result<u32, Failure> {
        self.required(option)?;
        Ok(self.number(option)?.unwrap_or(0))
    }

    /// A place that must be given.
    pub fn place(&self, option: &Opt) -> Result<Place, Failure> {
        Place::of(self.required_text(option)?).map_err(|wrong| self.bad_value(option, &wrong))
    }

    /// The failure that an option's place is none in the picture of a file.
    pub fn outside(&self, option: &Opt, path: &OsStr, outside: Outside) -> Failure {
        match outside {
            Outside::Count(message) => self.bad_value(option, &message),
            Outside::Refused(refusal, message) => {
                let message = format!("{} {message}", option.written());
                Failure::refused(path, refusal, message)
            }
        }
    }

    /// The numbers of the setting: `--kind`, which must be given by name or number, `--width` and `--step`.
    pub fn setting(&self) -> Result<[u32; 3], Failure> {
        let text = self.required_text(&Opt::KIND)?;
        let kind = match text.parse::<Kind>() {
            Ok(kind) => kind.number(),
            Err(_) if text.starts_with(|first: char| first.is_ascii_digit()) => {
                self.required_number(&Opt::KIND)?
            }
            Err(_) => return Err(self.bad_value(&Opt::KIND, &unknown_kind(text))),
        };
        let width = self.number(&Opt::WIDTH)?.unwrap_or(0);
        let step = self.number(&Opt::STEP)?.unwrap_or(0);
        Ok([kind, width, step])
    }
}

/// What is said of a kind's name that there is not.
fn unknown_kind(text: &str) -> String {
    let hint = match nearest(text, Kind::ALL.map(Kind::name).into_iter()) {
        Some(name) => format!("did you mean {name}?"),
        None => format!("the kinds are {}", Kind::listed()),
    };
    format!(
        "there is no kind {}; {hint}",
        shown::quoted(OsStr::new(text))
    )
}
