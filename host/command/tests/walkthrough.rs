//! The walk-through of README.md prints what it says.

mod support;

use std::path::Path;
use support::Folder;

const README: &str = concat!(env!("CARGO_MANIFEST_DIR"), "/../../README.md");

/// A command of the walk-through and what it prints, both streams together.
struct Step {
    command: String,
    expected: String,
}

/// The steps of the fenced blocks between the two marks.
fn steps() -> Vec<Step> {
    let readme = std::fs::read_to_string(README).expect("README.md");
    let (_, rest) = readme
        .split_once("<!-- walk-through -->")
        .expect("its begin");
    let (part, _) = rest
        .split_once("<!-- end of walk-through -->")
        .expect("its end");
    let mut steps: Vec<Step> = Vec::new();
    let mut inside = false;
    for line in part.lines() {
        if line.starts_with("```") {
            inside = !inside;
        } else if let Some(command) = line.strip_prefix("$ ").filter(|_| inside) {
            let command = command.to_string();
            steps.push(Step {
                command,
                expected: String::new(),
            });
        } else if inside {
            let step = steps.last_mut().expect("a command before any output");
            step.expected += line;
            step.expected.push('\n');
        }
    }
    assert!(!inside, "a block without an end");
    steps
}

#[test]
fn it_prints_what_it_says() {
    let folder = Folder::new();
    folder.folder("samples");
    for sample in 1..=6 {
        let name = format!("m{sample}.radar");
        let from = Path::new(support::SAMPLES).join(&name);
        std::fs::copy(from, folder.path(format!("samples/{name}"))).expect("a sample");
    }
    for Step { command, expected } in steps() {
        let run = folder.bash(&format!("exec 2>&1\n{command}"));
        assert_eq!(run.text(), expected, "$ {command}\n{}", run.story());
    }
}

#[test]
fn it_shows_the_commands() {
    let steps = steps();
    let commands = [
        "check", "info", "list", "cell", "rank", "count", "make", "set", "change", "shorter",
        "best", "diff", "expand", "manifest",
    ];
    for command in commands {
        let call = format!("radar-archive {command} ");
        let shown = steps.iter().any(|step| step.command.contains(&call));
        assert!(shown, "{command} is not in the walk-through");
    }
}
