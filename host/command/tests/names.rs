//! `--name`: which files inside folders are taken.

mod support;

use std::os::unix::fs::symlink;
use support::files::{Picture, SETTINGS};
use support::{Folder, Outcome};

/// The last line of standard error.
fn summary(run: &Outcome) -> String {
    run.notes().lines().last().unwrap_or_default().to_string()
}

/// A folder `d` with files of these names.
fn folder(names: &[&str]) -> Folder {
    let folder = Folder::new();
    folder.folder("d");
    for name in names {
        folder.write(format!("d/{name}"), &Picture::sample().file(SETTINGS[0]));
    }
    folder
}

/// The names that a pattern takes of `d`.
fn taken(folder: &Folder, glob: &str) -> Vec<String> {
    let run = folder.run_all(["check", "--all", "d", "--name", glob]);
    let text = run.ended(0).text();
    let name = |line: &str| line.replace("d/", "").replace(": accepted", "");
    text.lines().map(name).collect()
}

#[test]
fn others_are_passed_over_and_counted() {
    let folder = folder(&["a.radar", "b.radar", "notes.txt", ".hidden.radar"]);
    folder.folder("d/deep.txt/er");
    folder.write("d/deep.txt/er/c.radar", &folder.read("d/a.radar"));
    folder.write("d/deep.txt/er/bad", b"bad");
    let run = folder.run("check d --name *.radar");
    run.printed("d/a.radar: accepted\nd/b.radar: accepted\nd/deep.txt/er/c.radar: accepted\n");
    let counted =
        "3 files: 3 accepted, 0 refused, 0 not read; 1 hidden name passed over (--all checks it); \
                   2 files passed over whose names do not match --name";
    assert_eq!(summary(&run), counted);
    let run = folder.run("check d --all --name=*.t?t");
    run.printed("d/notes.txt: accepted\n");
    assert!(summary(&run).ends_with("; 5 files passed over whose names do not match --name"));
    let run = folder.run("check d --json --name bad");
    run.ended(1);
    let lines = run.json_lines();
    let summary = "{\"summary\":{\"files\":1,\"accepted\":0,\"refused\":1,\"unread\":0,\"hidden\":1,\"unmatched\":4}}";
    assert_eq!(lines[1], support::json::Json::of(summary));
}

#[test]
fn a_file_that_is_named_itself_is_always_checked() {
    let folder = folder(&["a.txt"]);
    let run = folder.run("check d/a.txt --name *.radar");
    run.printed("d/a.txt: accepted\n");
    assert_eq!(summary(&run), "1 file: 1 accepted, 0 refused, 0 not read");
    let run = folder.run("check d --name *.radar");
    run.printed("");
    assert_eq!(
        run.notes(),
        "d: no files whose names match --name\n\
         0 files: 0 accepted, 0 refused, 0 not read; 1 file passed over whose name does not match --name\n"
    );
    let single = folder.run("best d/a.txt --name *.radar -o new");
    single.printed("");
    assert!(folder.path("new").exists());
}

#[test]
fn patterns_are_those_of_the_c_library() {
    let names = ["-", "[", "\\", "]", "a", "a*", "ab", "b", ".a", "\u{e9}"];
    let folder = folder(&names);
    let cases: [(&str, &[&str]); 15] = [
        ("[", &["["]),
        ("\\[", &["["]),
        ("\\", &[]),
        ("\\\\", &["\\\\"]),
        ("[]]", &["]"]),
        ("[!a-z]", &["-", "[", "\\\\", "]"]),
        ("[ab]", &["a", "b"]),
        ("[a", &[]),
        ("a\\*", &["a*"]),
        ("a*", &["a", "a*", "ab"]),
        ("?", &["-", "[", "\\\\", "]", "a", "b"]),
        ("??", &[".a", "a*", "ab", "\u{e9}"]),
        ("*a", &[".a", "a"]),
        ("[[:alpha:]]", &["a", "b"]),
        ("\u{e9}", &["\u{e9}"]),
    ];
    for (glob, expected) in cases {
        assert_eq!(taken(&folder, glob), expected, "{glob}");
    }
    let all = taken(&folder, "*");
    assert_eq!(all.len(), names.len(), "{all:?}");
}

#[test]
fn a_pattern_that_can_match_nothing_is_not_understood() {
    let folder = folder(&["a"]);
    for glob in ["", "*/x", "/", "d/a"] {
        for call in [
            &["check", "d"][..],
            &["best", "d", "--force"],
            &["change", "d", "--kind", "1", "--force"],
        ] {
            let words = [call, &["--name", glob]].concat();
            let notes = folder.run_all(&words).usage(call[0]);
            assert!(notes.contains("--name: '"), "{notes}");
            assert!(notes.contains("matches no name"), "{notes}");
        }
    }
    folder.run("check d --name a --name a").usage("check");
    folder.run("info d/a --name a").usage("info");
}

#[test]
fn links_pipes_and_folders() {
    let folder = folder(&["a.radar"]);
    folder.folder("d/x");
    symlink("x", folder.path("d/link.txt")).expect("a link");
    symlink("nowhere", folder.path("d/broken.txt")).expect("a link");
    symlink("nowhere", folder.path("d/broken.radar")).expect("a link");
    folder.bash("mkfifo d/pipe.txt").ended(0);
    let run = folder.run("check d --name *.radar");
    let notes = run.failed("d/broken.radar: cannot be read: ");
    assert!(notes.contains("d/link.txt: a symbolic link to a folder"));
    assert!(
        !notes.contains("broken.txt") && !notes.contains("pipe"),
        "{notes}"
    );
    let counted = "2 files: 1 accepted, 0 refused, 1 not read; 2 files passed over whose names do not match --name";
    assert_eq!(summary(&run), counted);
}
