//! `completion`: the completion script of a shell.

use crate::arguments::{Command, Given, Operands};
use crate::commands::tell;
use crate::failure::Failure;
use crate::shown;

/// The completion script of bash.
pub(crate) const BASH: &str = include_str!("../../completion/radar-archive.bash");
/// The completion script of zsh.
pub(crate) const ZSH: &str = include_str!("../../completion/radar-archive.zsh");
/// The completion script of fish.
pub(crate) const FISH: &str = include_str!("../../completion/radar-archive.fish");

/// The shells, and the script of each.
const SHELLS: [(&str, &str); 3] = [("bash", BASH), ("zsh", ZSH), ("fish", FISH)];

pub(super) static COMMAND: Command = Command {
    name: "completion",
    options: &[],
    operands: Operands::each(&["SHELL"]),
    help: include_str!("../help/completion.txt"),
    run,
};

fn run(given: &Given) -> Result<u8, Failure> {
    let shell = &given.operands[0];
    if let Some((_, script)) = SHELLS.iter().find(|(name, _)| shell == name) {
        return tell(script);
    }
    let shell = shown::quoted(shell);
    Err(given.usage(format!(
        "there is no completion for {shell}; there is one for bash, zsh and fish"
    )))
}
