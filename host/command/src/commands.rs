//! The commands, and the choice among them.

mod best;
mod box_words;
mod cell;
mod change;
mod check;
mod completion;
mod count;
mod diff;
mod expand;
mod help;
mod in_order;
mod info;
mod list;
mod lookup;
mod make;
mod man;
mod manifest;
mod passed;
mod position;
mod put_out;
mod rank;
mod recode;
mod set;
mod shorter;
mod tree;
mod walk;

#[cfg(test)]
pub(crate) use completion::{BASH, FISH, ZSH};
#[cfg(test)]
pub(crate) use man::PAGE;

use std::ffi::{OsStr, OsString};

use crate::arguments::{nearest, parse, Command, Given, Opt, Request};
use crate::failure::{Failure, DONE};
use crate::help::PROGRAM;
use crate::output::Results;
use crate::{shown, version};

/// All commands, in the order of the program's help.
pub static ALL: [&Command; 19] = [
    &check::COMMAND,
    &info::COMMAND,
    &list::COMMAND,
    &cell::COMMAND,
    &rank::COMMAND,
    &position::COMMAND,
    &count::COMMAND,
    &box_words::COMMAND,
    &expand::COMMAND,
    &make::COMMAND,
    &set::COMMAND,
    &change::COMMAND,
    &shorter::COMMAND,
    &diff::COMMAND,
    &best::COMMAND,
    &manifest::COMMAND,
    &completion::COMMAND,
    &man::COMMAND,
    &help::COMMAND,
];

/// Runs the command that the first argument names on the others, and gives the exit status.
pub fn run(mut arguments: impl Iterator<Item = OsString>) -> Result<u8, Failure> {
    let Some(first) = arguments.next() else {
        return Err(usage("no command is given".to_string()));
    };
    match first.to_str() {
        Some("--help" | "-h") => return tell(PROGRAM),
        Some("--version" | "-V") => return tell(&version::told()),
        Some(word) if word.starts_with('-') => return Err(unknown_option(word)),
        _ => {}
    }
    let command = named(&first)?;
    match parse(command, arguments)? {
        Request::Help => tell(command.help),
        Request::Run(given) => (command.run)(&given).map_err(|failure| put_too(&given, failure)),
    }
}

/// With `--json`, puts a failure about a file on standard output too. A failure to do so is the one that is told.
fn put_too(given: &Given, failure: Failure) -> Failure {
    let object = failure.object().filter(|_| given.has(&Opt::JSON));
    let put = object.map_or(Ok(DONE), |mut object| lookup::put_line(&object.line()));
    put.err().unwrap_or(failure)
}

/// The command of a name.
fn named(name: &OsStr) -> Result<&'static Command, Failure> {
    if let Some(command) = ALL.into_iter().find(|command| name == command.name) {
        return Ok(command);
    }
    let names = ALL.into_iter().map(|command| command.name);
    let hint = name
        .to_str()
        .and_then(|name| nearest(name, names))
        .map_or(String::new(), |name| format!("; did you mean {name}?"));
    let name = shown::quoted(name);
    Err(usage(format!("there is no command {name}{hint}")))
}

/// What is said of an option before the command that is not the program's.
fn unknown_option(word: &str) -> Failure {
    let typed = word.trim_start_matches('-');
    let hint = match nearest(typed, ["help", "version"].into_iter()) {
        Some(name) => format!("did you mean --{name}?"),
        None => "a command's options stand after its name".to_string(),
    };
    let word = shown::quoted(OsStr::new(word));
    usage(format!("unknown option {word}; {hint}"))
}

/// A usage error of the program.
fn usage(message: String) -> Failure {
    Failure::Usage {
        command: None,
        message,
    }
}

/// Puts a text on standard output.
fn tell(text: &str) -> Result<u8, Failure> {
    let mut results = Results::open()?;
    results.put(text.as_bytes())?;
    results.finish()?;
    Ok(DONE)
}
