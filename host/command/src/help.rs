//! The help texts.

/// The program's help.
pub const PROGRAM: &str = include_str!("help/program.txt");

#[cfg(test)]
mod tests {
    use super::PROGRAM;
    use crate::arguments::Command;
    use crate::commands::{ALL, BASH, FISH, PAGE, ZSH};
    use crate::version::VERSION;

    /// All ways to write a command's options.
    fn written(command: &Command) -> Vec<String> {
        let forms = |o: &crate::arguments::Opt| {
            let long = Some(format!("--{}", o.long));
            [long, o.short.map(|letter| format!("-{letter}"))]
        };
        command.all_options().flat_map(forms).flatten().collect()
    }

    /// Whether a text has a word, with nothing of an option's name on either side.
    fn has(text: &str, word: &str) -> bool {
        let inside = |c: char| c.is_ascii_alphanumeric() || c == '-';
        text.match_indices(word).any(|(at, _)| {
            let end = at + word.len();
            !text[..at].ends_with(inside) && !text[end..].starts_with(inside)
        })
    }

    #[test]
    fn each_help_names_its_options_and_has_an_example() {
        for command in ALL {
            let name = command.name;
            for option in written(command) {
                assert!(has(command.help, &option), "{name} --help: {option}");
            }
            let usage = format!("Usage: radar-archive {name}");
            assert!(command.help.starts_with(&usage), "{name} --help: usage");
            let examples = command.help.split("Examples:\n").nth(1);
            let example = format!("  radar-archive {name}");
            let starts = examples.is_some_and(|text| text.starts_with(&example));
            assert!(starts, "{name} --help: example");
            assert!(command.help.ends_with('\n'), "{name} --help: last line");
        }
    }

    #[test]
    fn the_program_s_help_has_a_line_for_each_command() {
        for command in ALL {
            let line = format!("\n  {} ", command.name);
            assert!(PROGRAM.contains(&line), "{}", command.name);
        }
    }

    #[test]
    fn the_man_page_names_each_command_and_option() {
        let page = PAGE.replace("\\-", "-");
        for command in ALL {
            let name = command.name;
            let heading = format!("\n.TP\n.BR {name} ");
            let alone = format!("\n.TP\n.B {name}\n");
            assert!(page.contains(&heading) || page.contains(&alone), "{name}");
            for option in written(command) {
                assert!(has(&page, &option), "{option}");
            }
        }
        let version = format!("\"radar-archive {VERSION}\"");
        assert!(page.contains(&version));
    }

    /// Wants a line that starts with the command's name for each command, and its options in that line.
    fn offers(script: &str, start: impl Fn(&str) -> String) {
        for command in ALL {
            let name = command.name;
            let start = start(name);
            let Some(line) = script.lines().find(|line| line.starts_with(&start)) else {
                assert!(command.options.is_empty(), "{name}");
                continue;
            };
            for option in written(command) {
                let help = option == "--help" || option == "-h";
                assert!(help || has(line, &option), "{name}: {option}");
            }
        }
    }

    #[test]
    fn the_completion_of_bash_offers_each_command_and_option() {
        let first = BASH.lines().find(|line| line.contains("local commands="));
        for command in ALL {
            let name = command.name;
            assert!(first.is_some_and(|line| has(line, name)), "{name}");
        }
        offers(BASH, |name| format!("        {name}) options="));
    }

    #[test]
    fn the_completion_of_zsh_offers_each_command_and_option() {
        for command in ALL {
            let name = command.name;
            assert!(ZSH.contains(&format!("\n        '{name}:")), "{name}");
            assert!(ZSH.contains(&format!("\n        {name}) ")), "{name}");
            for option in written(command) {
                let key = format!("\n        {option} ");
                assert!(ZSH.contains(&key), "{name}: {option}");
            }
        }
        offers(ZSH, |name| format!("        {name}) options="));
    }

    #[test]
    fn the_completion_of_fish_offers_each_command_and_option() {
        let lines = || FISH.lines().filter(|line| !line.starts_with('#'));
        for command in ALL {
            let name = command.name;
            let first = format!("_no_command -a {name} -d ");
            assert!(lines().any(|line| line.contains(&first)), "{name}");
            for option in command.all_options() {
                let mut written = format!("-l {}", option.long);
                if let Some(letter) = option.short {
                    written = format!("-s {letter} {written}");
                }
                let mut offers = lines().filter_map(|line| line.split_once(&written));
                let found = offers.any(|(before, _)| has(before, name));
                assert!(found, "{name}: {written}");
            }
        }
    }
}
