//! The help texts, the manual page and the completion: they name every command and option.

mod support;

use support::options::{COMMANDS, OTHERS};
use support::Folder;

/// Whether the text has this word, not as a part of a longer one.
fn has_word(text: &str, word: &str) -> bool {
    let part = |c: char| c.is_ascii_alphanumeric() || c == '-' || c == '_';
    text.match_indices(word).any(|(at, _)| {
        let before = text[..at].chars().next_back();
        let after = text[at + word.len()..].chars().next();
        !before.is_some_and(part) && !after.is_some_and(part)
    })
}

/// All commands by name.
fn names() -> impl Iterator<Item = &'static str> {
    COMMANDS.iter().map(|(name, _)| *name).chain(OTHERS)
}

#[test]
fn the_programs_help_names_every_command() {
    let folder = Folder::new();
    let help = folder.run("--help");
    help.quiet();
    for name in names() {
        assert!(has_word(&help.text(), name), "{name}\n{}", help.story());
    }
    folder.run("-h").printed(&help.text()).quiet();
    folder.run("help").printed(&help.text()).quiet();
    for option in ["--help", "--version"] {
        assert!(has_word(&help.text(), option), "{option}\n{}", help.story());
    }
}

#[test]
fn each_commands_help_names_each_of_its_options() {
    let folder = Folder::new();
    for (name, options) in COMMANDS {
        let help = folder.run(&format!("{name} --help"));
        help.quiet();
        let text = help.text();
        for option in options.iter().chain(&["--help"]) {
            assert!(has_word(&text, option), "{option}\n{}", help.story());
        }
        assert!(
            text.contains(&format!("radar-archive {name} ")),
            "{}",
            help.story()
        );
        folder.run(&format!("help {name}")).printed(&text).quiet();
        folder.run(&format!("{name} -h")).printed(&text).quiet();
        folder.run(&format!("{name} --frobnicate --help")).ended(2);
    }
    for name in OTHERS {
        let help = folder.run(&format!("{name} --help"));
        assert!(
            help.quiet()
                .text()
                .contains(&format!("radar-archive {name}")),
            "{}",
            help.story()
        );
    }
}

#[test]
fn help_has_no_line_over_100_columns() {
    let folder = Folder::new();
    let calls = names()
        .map(|name| format!("{name} --help"))
        .chain(["--help".to_string()]);
    for call in calls {
        let text = folder.run(&call).quiet().text();
        assert!(text.lines().count() > 3, "{call}: {text}");
        for line in text.lines() {
            assert!(line.chars().count() <= 100, "{call}: {line}");
            assert_eq!(line, line.trim_end(), "{call}");
        }
    }
}

#[test]
fn the_manual_names_every_command_and_option() {
    let folder = Folder::new();
    let manual = folder.run("man");
    manual.quiet();
    let text = manual
        .text()
        .replace("\\-", "-")
        .replace("\\fB", "")
        .replace("\\fR", "")
        .replace("\\fI", "");
    assert!(text.starts_with(".") || text.starts_with("'"), "{text}");
    for (name, options) in COMMANDS {
        assert!(has_word(&text, name), "{name}");
        for option in options {
            assert!(has_word(&text, option), "{name} {option}");
        }
    }
    for word in WORDS_OF_THE_MANUAL {
        assert!(has_word(&text, word), "{word}");
    }
}

/// What the manual also says: the kinds, and the words of the signal list.
const WORDS_OF_THE_MANUAL: [&str; 19] = [
    "runs",
    "positions",
    "base-offset",
    "jumps",
    "paged-runs",
    "pointed-jumps",
    "short",
    "kind",
    "setting",
    "extent",
    "counts",
    "body",
    "picture",
    "beyond",
    "unfit",
    "small",
    "other",
    "--version",
    "--help",
];

#[test]
fn the_manual_can_be_set() {
    let folder = Folder::new();
    if !folder.bash("command -v groff").status.success() {
        eprintln!("no groff here: not tested");
        return;
    }
    let run = folder.bash("set -o pipefail; radar-archive man | groff -man -Tutf8 -ww");
    run.quiet();
    for (name, _) in COMMANDS {
        assert!(run.text().contains(name), "{name}");
    }
}

/// What the completion offers for the words of a command line, the last one incomplete.
fn completed(folder: &Folder, words: &str) -> Vec<String> {
    let script = format!(
        "source <(radar-archive completion bash) || exit 9\n\
         COMP_WORDS=({words}); COMP_CWORD=$((${{#COMP_WORDS[@]}} - 1))\n\
         COMP_LINE=\"${{COMP_WORDS[*]}}\"; COMP_POINT=${{#COMP_LINE}}\n\
         set -- $(complete -p radar-archive); while [ \"$1\" != -F ]; do shift; [ $# -gt 0 ] || exit 9; done\n\
         \"$2\" radar-archive \"${{COMP_WORDS[COMP_CWORD]}}\" \"${{COMP_WORDS[COMP_CWORD-1]}}\"\n\
         printf '%s\\n' \"${{COMPREPLY[@]}}\"\n"
    );
    let run = folder.bash(&script);
    run.ended(0);
    assert_eq!(run.notes(), "", "{}", run.story());
    let mut offers: Vec<_> = run.text().split_whitespace().map(str::to_string).collect();
    offers.sort();
    offers
}

#[test]
fn the_completion_completes_commands() {
    let folder = Folder::new();
    assert_eq!(completed(&folder, "radar-archive ch"), ["change", "check"]);
    assert_eq!(completed(&folder, "radar-archive sh"), ["shorter"]);
    assert_eq!(completed(&folder, "radar-archive cou"), ["count"]);
    let acts = completed(&folder, "radar-archive manifest ''");
    assert_eq!(acts, ["verify", "write"]);
    assert_eq!(
        completed(&folder, "radar-archive manifest write w"),
        [""; 0]
    );
    let mut all: Vec<_> = names().collect();
    all.sort_unstable();
    let offers = completed(&folder, "radar-archive ''");
    let offers: Vec<_> = offers
        .iter()
        .filter(|offer| !offer.starts_with('-'))
        .collect();
    assert_eq!(offers, all.iter().collect::<Vec<_>>());
}

#[test]
fn the_completion_completes_the_options_of_each_command() {
    let folder = Folder::new();
    for (name, options) in COMMANDS {
        let offers = completed(&folder, &format!("radar-archive {name} --"));
        let long = options.iter().filter(|option| option.starts_with("--"));
        for option in long {
            assert!(
                offers
                    .iter()
                    .any(|offer| offer.trim_end_matches('=') == *option),
                "{name} {option}: {offers:?}"
            );
        }
        let all: Vec<_> = options.iter().chain(&["--help"]).collect();
        for offer in offers.iter().filter(|offer| offer.starts_with('-')) {
            assert!(
                all.iter()
                    .any(|option| **option == offer.trim_end_matches('=')),
                "{name} {offer}"
            );
        }
    }
}

#[test]
fn the_completion_names_every_command_and_option() {
    let folder = Folder::new();
    for shell in ["bash", "zsh"] {
        let script = folder.run(&format!("completion {shell}"));
        script.quiet();
        for (name, options) in COMMANDS {
            assert!(has_word(&script.text(), name), "{shell}: {name}");
            for option in options.iter() {
                assert!(has_word(&script.text(), option), "{shell}: {name} {option}");
            }
        }
    }
    let kinds = completed(&folder, "radar-archive change --kind ''");
    for kind in [
        "runs",
        "positions",
        "base-offset",
        "jumps",
        "paged-runs",
        "pointed-jumps",
    ] {
        assert!(kinds.iter().any(|offer| offer == kind), "{kind}: {kinds:?}");
    }
}

#[test]
fn the_completion_completes_file_names() {
    let folder = Folder::with_samples();
    let offers = completed(&folder, "radar-archive info m1");
    let by_bash = folder
        .bash("source <(radar-archive completion bash); complete -p radar-archive")
        .text();
    assert!(
        offers == ["m1.radar"] || by_bash.contains("default"),
        "{offers:?}, {by_bash}"
    );
}

/// Whether a shell is installed; where not, what is not tested is told.
fn installed(folder: &Folder, shell: &str) -> bool {
    let found = folder.bash(&format!("command -v {shell}")).status.success();
    if !found {
        eprintln!("no {shell} here: not tested");
    }
    found
}

/// What fish offers for a command line.
fn offered_by_fish(folder: &Folder, line: &str) -> Vec<String> {
    let script = format!("radar-archive completion fish | source; complete -C '{line}'");
    let run = folder.bash(&format!("HOME=$PWD fish --no-config -c \"{script}\""));
    let text = run.quiet().text();
    let offer = |line: &str| line.split('\t').next().unwrap_or("").to_string();
    text.lines().map(offer).collect()
}

#[test]
fn fish_completes_commands_and_options() {
    let folder = Folder::with_samples();
    if !installed(&folder, "fish") {
        return;
    }
    let offers = offered_by_fish(&folder, "radar-archive ch");
    assert_eq!(offers, ["change", "check"]);
    for (name, options) in COMMANDS {
        let offers = offered_by_fish(&folder, &format!("radar-archive {name} --"));
        let long = options.iter().chain(&["--help"]);
        let mut long: Vec<_> = long.filter(|option| option.starts_with("--")).collect();
        long.sort_unstable();
        assert_eq!(offers.iter().collect::<Vec<_>>(), long, "{name}");
    }
    let offers = offered_by_fish(&folder, "radar-archive info m1");
    assert_eq!(offers, ["m1.radar"]);
}

#[test]
fn zsh_reads_its_completion() {
    let folder = Folder::new();
    if installed(&folder, "zsh") {
        folder
            .bash("radar-archive completion zsh > _radar-archive && zsh -f -n _radar-archive")
            .quiet();
    }
}
