//! The examples of the help texts succeed on the files that they name.

mod support;

use std::fs::File;
use std::os::unix::fs::{symlink, FileExt};
use support::files::Picture;
use support::options::{COMMANDS, OTHERS};
use support::Folder;

/// The lines below `Examples` of a help text.
fn examples(folder: &Folder, call: &str) -> Vec<String> {
    let text = folder.run(call).quiet().text();
    let below = text
        .lines()
        .skip_while(|line| !line.starts_with("Examples"))
        .skip(1);
    let lines = below.take_while(|line| line.starts_with("  "));
    lines.map(|line| line.trim_start().to_string()).collect()
}

/// A folder with `scan.raw` and `scan.radar`, a picture of 16 x 1024 x 1024 cells, and `sweep.radar`, one of 360 bearings by 512 ranges.
fn scan() -> Folder {
    let folder = Folder::new();
    let raw = File::create(folder.path("scan.raw")).expect("scan.raw");
    raw.set_len(4 << 24).expect("its length");
    for position in [5, 1024, 3_163_336, 3_163_337, 16_777_215] {
        let word = [44, 1, 0, 0];
        raw.write_all_at(&word, 4 * position).expect("a word");
    }
    folder
        .run("make --dims 16x1024x1024 --kind runs scan.raw -o scan.radar")
        .printed("");
    let sweep = Picture::scattered(&[360, 512], 0, 50);
    folder.write("sweep.radar", &sweep.file([4, 1, 0]));
    folder
}

/// A folder with what the examples name: the two files of the scan, the sweep, and a folder `archive` of picture files.
fn beside(scan: &Folder) -> Folder {
    let folder = Folder::new();
    folder.folder("archive/older");
    for name in ["scan.radar", "archive/one.radar", "archive/older/two.radar"] {
        folder.write(name, &scan.read("scan.radar"));
    }
    folder.write("sweep.radar", &scan.read("sweep.radar"));
    symlink(scan.path("scan.raw"), folder.path("scan.raw")).expect("a link");
    folder
}

/// Runs the examples of a help text, each in a folder of its own.
fn run_examples(scan: &Folder, call: &str, command: &str) {
    let examples = examples(scan, call);
    assert!(!examples.is_empty(), "{call}: no example");
    for example in examples {
        assert!(
            example.contains(&format!("radar-archive {command}")),
            "{call}: {example}"
        );
        beside(scan)
            .bash(&format!("set -o pipefail; {example}"))
            .ended(0);
    }
}

#[test]
fn of_the_program() {
    run_examples(&scan(), "--help", "");
}

#[test]
fn of_each_command_on_files() {
    let scan = scan();
    for (name, _) in COMMANDS {
        run_examples(&scan, &format!("{name} --help"), name);
    }
}

#[test]
fn of_the_other_commands() {
    let scan = scan();
    for name in OTHERS {
        run_examples(&scan, &format!("{name} --help"), name);
    }
}

#[test]
fn of_the_manual() {
    let scan = scan();
    let manual = scan
        .run("man")
        .quiet()
        .text()
        .replace("\\-", "-")
        .replace("\\&", "")
        .replace("\\(aq", "'");
    let below = manual
        .lines()
        .skip_while(|line| !line.starts_with(".SH EXAMPLES"))
        .skip(1);
    let section = below.take_while(|line| !line.starts_with(".SH "));
    let examples: Vec<_> = section
        .filter(|line| line.starts_with("radar-archive "))
        .collect();
    assert!(examples.len() > 3, "{manual}");
    let folder = beside(&scan);
    for example in examples {
        folder.bash(&format!("set -o pipefail; {example}")).ended(0);
    }
}
