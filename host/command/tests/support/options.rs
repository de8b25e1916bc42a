//! The commands and their options, as the specification has them.

/// A command and the options it takes besides `--help`.
pub type Command = (&'static str, &'static [&'static str]);

/// The commands on files.
pub const COMMANDS: [Command; 16] = [
    (
        "check",
        &[
            "--json",
            "-q",
            "--quiet",
            "--all",
            "--name",
            "--files0-from",
            "-j",
            "--jobs",
            "--no-progress",
        ],
    ),
    ("info", &["--json"]),
    ("list", &[]),
    ("cell", &["--at", "--hex", "--json"]),
    ("rank", &["--at", "--json"]),
    ("position", &["--rank", "--json"]),
    ("count", &["--from", "--to", "--json"]),
    (
        "box",
        &[
            "--low", "--high", "--hex", "--json", "-o", "--output", "-f", "--force",
        ],
    ),
    ("expand", &["-o", "--output", "-f", "--force"]),
    (
        "make",
        &[
            "--list",
            "--dims",
            "--empty",
            "--kind",
            "--width",
            "--step",
            "-o",
            "--output",
            "-f",
            "--force",
            "--max-length",
        ],
    ),
    (
        "set",
        &[
            "--at",
            "--word",
            "-o",
            "--output",
            "-f",
            "--force",
            "--max-length",
        ],
    ),
    (
        "change",
        &[
            "--kind",
            "--width",
            "--step",
            "-o",
            "--output",
            "-f",
            "--force",
            "--max-length",
            "--name",
            "--all",
            "-q",
            "--quiet",
        ],
    ),
    ("shorter", &["--json"]),
    ("diff", &["--hex", "--json", "-q", "--quiet"]),
    (
        "best",
        &[
            "-o",
            "--output",
            "-f",
            "--force",
            "--max-length",
            "--name",
            "--all",
            "-q",
            "--quiet",
        ],
    ),
    (
        "manifest",
        &[
            "-o",
            "--output",
            "-f",
            "--force",
            "-m",
            "--manifest",
            "-q",
            "--quiet",
            "--json",
            "--all",
            "--no-progress",
        ],
    ),
];

/// The commands that read no file.
pub const OTHERS: [&str; 3] = ["completion", "man", "help"];
