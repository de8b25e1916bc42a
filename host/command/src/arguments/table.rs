//! What a command takes.

use crate::arguments::Given;
use crate::failure::Failure;

/// A command of the program.
#[derive(Debug)]
pub struct Command {
    /// Its name.
    pub name: &'static str,
    /// Its options, without `--help`, which every command has.
    pub options: &'static [Opt],
    /// Its operands.
    pub operands: Operands,
    /// Its help.
    pub help: &'static str,
    /// Runs it and gives the exit status.
    pub run: fn(&Given) -> Result<u8, Failure>,
}

/// An option.
#[derive(Clone, Copy, Debug, PartialEq, Eq)]
pub struct Opt {
    /// Its name after two hyphens.
    pub long: &'static str,
    /// Its letter after one hyphen.
    pub short: Option<char>,
    /// What its value is called; nothing where it has none.
    pub value: Option<&'static str>,
}

/// The operands of a command.
#[derive(Clone, Copy, Debug, PartialEq, Eq)]
pub struct Operands {
    /// What they are called, in order.
    pub names: &'static [&'static str],
    /// How many of them may be left out.
    pub optional: usize,
    /// Whether the last may be given many times.
    pub many: bool,
}

impl Operands {
    /// No operand.
    pub const NONE: Operands = Operands::each(&[]);

    /// Each of these once.
    pub const fn each(names: &'static [&'static str]) -> Operands {
        Operands {
            names,
            optional: 0,
            many: false,
        }
    }
}

impl Opt {
    /// An option without a value.
    const fn flag(long: &'static str, short: Option<char>) -> Opt {
        Opt {
            long,
            short,
            value: None,
        }
    }

    /// An option with a value.
    const fn with(long: &'static str, value: &'static str) -> Opt {
        Opt {
            long,
            short: None,
            value: Some(value),
        }
    }

    /// `--help`, `-h`.
    pub const HELP: Opt = Opt::flag("help", Some('h'));
    /// `--json`.
    pub const JSON: Opt = Opt::flag("json", None);
    /// `--quiet`, `-q`.
    pub const QUIET: Opt = Opt::flag("quiet", Some('q'));
    /// `--all`.
    pub const ALL: Opt = Opt::flag("all", None);
    /// `--name`.
    pub const NAME: Opt = Opt::with("name", "GLOB");
    /// `--files0-from`.
    pub const FILES0_FROM: Opt = Opt::with("files0-from", "FILE");
    /// `--jobs`, `-j`.
    pub const JOBS: Opt = Opt {
        long: "jobs",
        short: Some('j'),
        value: Some("N"),
    };
    /// `--no-progress`.
    pub const NO_PROGRESS: Opt = Opt::flag("no-progress", None);
    /// `--hex`.
    pub const HEX: Opt = Opt::flag("hex", None);
    /// `--force`, `-f`.
    pub const FORCE: Opt = Opt::flag("force", Some('f'));
    /// `--output`, `-o`.
    pub const OUTPUT: Opt = Opt {
        long: "output",
        short: Some('o'),
        value: Some("FILE"),
    };
    /// `--manifest`, `-m`.
    pub const MANIFEST: Opt = Opt {
        long: "manifest",
        short: Some('m'),
        value: Some("FILE"),
    };
    /// `--at`.
    pub const AT: Opt = Opt::with("at", "PLACE");
    /// `--low`.
    pub const LOW: Opt = Opt::with("low", "PLACE");
    /// `--high`.
    pub const HIGH: Opt = Opt::with("high", "PLACE");
    /// `--from`.
    pub const FROM: Opt = Opt::with("from", "PLACE");
    /// `--to`.
    pub const TO: Opt = Opt::with("to", "PLACE");
    /// `--rank`.
    pub const RANK: Opt = Opt::with("rank", "RANK");
    /// `--word`.
    pub const WORD: Opt = Opt::with("word", "WORD");
    /// `--dims`.
    pub const DIMS: Opt = Opt::with("dims", "EXTENTS");
    /// `--empty`.
    pub const EMPTY: Opt = Opt::with("empty", "WORD");
    /// `--kind`.
    pub const KIND: Opt = Opt::with("kind", "KIND");
    /// `--width`.
    pub const WIDTH: Opt = Opt::with("width", "BYTES");
    /// `--step`.
    pub const STEP: Opt = Opt::with("step", "STEP");
    /// `--list`.
    pub const LIST: Opt = Opt::with("list", "LIST");
    /// `--max-length`.
    pub const MAX_LENGTH: Opt = Opt::with("max-length", "BYTES");

    /// The option as it is written in messages: its letter where it is known by it.
    pub fn written(&self) -> String {
        match (self.value, self.short) {
            (Some(_), Some(letter)) => format!("-{letter}"),
            _ => format!("--{}", self.long),
        }
    }
}

impl Command {
    /// The options, `--help` too.
    pub fn all_options(&self) -> impl Iterator<Item = &'static Opt> {
        self.options.iter().chain(std::iter::once(&Opt::HELP))
    }

    /// A usage error of this command.
    pub fn usage(&self, message: String) -> Failure {
        Failure::Usage {
            command: Some(self.name),
            message,
        }
    }
}
