//! `check` of folders: which files, in which order, and the summary.

mod support;

use std::ffi::OsStr;
use std::os::unix::ffi::OsStrExt;
use std::os::unix::fs::{symlink, PermissionsExt};
use support::files::{one_of_each, Picture, SETTINGS};
use support::{Folder, WORDS};

/// The last line of standard error.
fn summary(run: &support::Outcome) -> String {
    run.notes().lines().last().unwrap_or_default().to_string()
}

#[test]
fn a_thousand_files_some_damaged() {
    let folder = Folder::new();
    folder.folder("d");
    let damaged = one_of_each();
    let mut expected = Vec::new();
    for number in 0..1000 {
        let name = format!("d/{number:04}.radar");
        match number % 150 {
            149 => {
                let (refusal, file) = &damaged[number / 150];
                folder.write(&name, file);
                expected.push(format!("{name}: refused, {refusal} {}: ", WORDS[*refusal]));
            }
            _ => {
                folder.write(&name, &Picture::sample().file(SETTINGS[number % 6]));
                expected.push(format!("{name}: accepted"));
            }
        }
    }
    let run = folder.run("check d");
    run.ended(1);
    let text = run.text();
    assert_eq!(text.lines().count(), 1000, "{}", run.story());
    for (line, expected) in text.lines().zip(&expected) {
        assert!(
            line.starts_with(expected.as_str()),
            "{line}, not {expected}"
        );
    }
    assert_eq!(
        run.notes(),
        "1000 files: 994 accepted, 6 refused, 0 not read\n"
    );
    let quiet = folder.run("check --quiet d");
    quiet.ended(1);
    let refused: String = text
        .split_inclusive('\n')
        .filter(|line| line.contains(": refused, "))
        .collect();
    assert_eq!(quiet.text(), refused);
    assert_eq!(quiet.notes(), run.notes());
}

#[test]
fn folders_in_folders_in_byte_order() {
    let folder = Folder::new();
    let m1 = Picture::sample().file(SETTINGS[0]);
    for name in ["d/b", "d/b/c", "d/b/c/e", "d/g"] {
        folder.folder(name);
    }
    let files = [
        "d/A",
        "d/Z",
        "d/a",
        "d/b/1",
        "d/b/10",
        "d/b/2",
        "d/b/c/e/x",
        "d/f",
        "d/g/y",
        "d/\u{e9}",
    ];
    for name in files {
        folder.write(name, &m1);
    }
    let lines: String = files
        .iter()
        .map(|name| format!("{name}: accepted\n"))
        .collect();
    let run = folder.run("check d");
    run.printed(&lines);
    assert_eq!(
        run.notes(),
        "10 files: 10 accepted, 0 refused, 0 not read\n"
    );
    folder.run("check d/").printed(&lines);
    let both = folder.run("check d/g d/b/c d/A");
    both.printed("d/g/y: accepted\nd/b/c/e/x: accepted\nd/A: accepted\n");
}

#[test]
fn hidden_names_are_passed_over_and_counted() {
    let folder = Folder::new();
    let m1 = Picture::sample().file(SETTINGS[0]);
    folder.folder("d/.git/objects");
    folder.write("d/.git/objects/x", b"");
    folder.write("d/.git/y", b"");
    folder.write("d/.hidden", b"");
    folder.write("d/.other", &m1);
    folder.write("d/a", &m1);
    folder.write("d/b", &m1);
    let run = folder.run("check d");
    run.printed("d/a: accepted\nd/b: accepted\n");
    let counted = "2 files: 2 accepted, 0 refused, 0 not read; 3 hidden names passed over (--all checks them)";
    assert_eq!(summary(&run), counted);
    let run = folder.run("check --all d");
    run.ended(1);
    assert_eq!(run.text().lines().count(), 6, "{}", run.story());
    assert_eq!(summary(&run), "6 files: 3 accepted, 3 refused, 0 not read");
    let named = folder.run("check d/.other");
    named.printed("d/.other: accepted\n");
    folder.run("check d/.hidden").ended(1);
}

#[test]
fn the_folder_of_the_call_itself() {
    let folder = Folder::with_samples();
    let run = folder.run("check .");
    run.ended(0);
    assert_eq!(run.text().lines().count(), 6, "{}", run.story());
    assert_eq!(summary(&run), "6 files: 6 accepted, 0 refused, 0 not read");
    for (number, line) in (1..).zip(run.text().lines()) {
        assert!(
            line.ends_with(&format!("m{number}.radar: accepted")),
            "{line}"
        );
    }
}

#[test]
fn a_folder_without_files_is_said_and_no_error() {
    let folder = Folder::new();
    folder.folder("empty");
    folder.folder("outer/inner");
    let run = folder.run("check empty");
    run.printed("");
    assert!(run.notes().contains("empty: no files"), "{}", run.story());
    assert_eq!(summary(&run), "0 files: 0 accepted, 0 refused, 0 not read");
    folder.run("check outer").printed("");
    folder.run("check --quiet empty").printed("");
    folder.run("check --json empty").printed(
        "{\"summary\":{\"files\":0,\"accepted\":0,\"refused\":0,\"unread\":0,\"hidden\":0,\"unmatched\":0}}\n",
    );
}

#[test]
fn links_to_files_are_followed_and_links_to_folders_are_not() {
    let folder = Folder::with_samples();
    folder.folder("d");
    folder.folder("elsewhere");
    folder.write("elsewhere/bad", b"");
    symlink("../m1.radar", folder.path("d/link")).expect("a link");
    symlink("../elsewhere", folder.path("d/folder")).expect("a link");
    symlink(".", folder.path("d/loop")).expect("a link");
    let run = folder.run("check d");
    run.printed("d/link: accepted\n");
    assert_eq!(summary(&run), "1 file: 1 accepted, 0 refused, 0 not read");
    symlink("nowhere", folder.path("d/broken")).expect("a link");
    let run = folder.run("check d");
    run.failed("d/broken: cannot be read: ");
    assert_eq!(summary(&run), "2 files: 1 accepted, 0 refused, 1 not read");
}

#[test]
fn a_missing_file_is_3_and_the_others_are_checked() {
    let folder = Folder::with_samples();
    folder.write("bad", b"");
    let run = folder.run("check missing m1.radar bad");
    run.failed("radar-archive: missing: cannot be read: ");
    assert!(
        run.text()
            .starts_with("m1.radar: accepted\nbad: refused, 1 short: "),
        "{}",
        run.story()
    );
    assert_eq!(summary(&run), "3 files: 1 accepted, 1 refused, 1 not read");
}

#[test]
fn an_unreadable_file_and_folder() {
    let folder = Folder::with_samples();
    folder.folder("d/closed");
    folder.write("d/a", &folder.read("m1.radar"));
    folder.write("d/secret", b"");
    folder.write("d/closed/x", b"");
    for name in ["d/secret", "d/closed"] {
        let none = PermissionsExt::from_mode(0o000);
        std::fs::set_permissions(folder.path(name), none).expect("permissions");
    }
    let run = folder.run_as_nobody("check d");
    run.failed("d/secret: cannot be read: ");
    run.failed("d/closed: cannot be read: ");
    assert_eq!(run.text(), "d/a: accepted\n", "{}", run.story());
    let open = PermissionsExt::from_mode(0o755);
    std::fs::set_permissions(folder.path("d/closed"), open).expect("permissions");
}

#[test]
fn names_with_spaces_newlines_and_other_bytes() {
    let folder = Folder::new();
    folder.folder("d");
    let m1 = Picture::sample().file(SETTINGS[0]);
    let names: [&[u8]; 4] = [b"a b", b"e\nf", b"g\xff\xfe", b"-q"];
    for name in names {
        folder.write(OsStr::from_bytes(&[b"d/", name].concat()), &m1);
    }
    let run = folder.run("check d");
    run.ended(0);
    assert_eq!(summary(&run), "4 files: 4 accepted, 0 refused, 0 not read");
    for name in [
        &b"d/a b: accepted\n"[..],
        b"d/e\\nf: accepted\n",
        b"d/g\xff\xfe: accepted\n",
        b"d/-q: accepted\n",
    ] {
        let found = run.out.windows(name.len()).any(|part| part == name);
        assert!(found, "{name:?}\n{}", run.story());
    }
    for name in names {
        let path = OsStr::from_bytes(&[b"d/", name].concat()).to_os_string();
        folder
            .run_all([OsStr::new("cell"), &path, OsStr::new("--at=10")])
            .printed("300\n");
    }
}

#[test]
fn no_name_takes_two_lines_and_bash_has_it_back() {
    let folder = Folder::new();
    let m1 = Picture::sample().file(SETTINGS[0]);
    let names = [
        "a: accepted\nb",
        "back\\slash",
        "back\\nslash",
        "bell\u{7}",
        "c1 \u{9b}2J",
        "tab\t",
        "\u{e9}",
        "\u{1b}[2J\r",
    ];
    let mut sorted = names;
    sorted.sort_unstable();
    folder.folder("d");
    for name in names {
        folder.write(format!("d/{name}"), &m1);
    }
    folder.write("bad\nname", b"bad");
    let run = folder.run("check d");
    assert_eq!(run.ended(0).text().lines().count(), names.len());
    let back = folder.bash(
        "radar-archive check d 2>/dev/null | while read -r line; do printf '%b\\0' \"${line%: accepted}\"; done",
    );
    let expected: String = sorted.iter().map(|name| format!("d/{name}\0")).collect();
    assert_eq!(back.text(), expected);
    let run = folder.run_all(["info", "bad\nname"]);
    run.refused(1);
    assert_eq!(run.notes().lines().count(), 1, "{}", run.story());
    let shorter = folder.run_all(["shorter", "d/back\\slash", "d/tab\t"]);
    shorter.printed("d/back\\\\slash\n");
}

#[test]
fn a_pipe_without_a_writer_does_not_stop_the_walk() {
    let folder = Folder::with_samples();
    folder.folder("d");
    folder
        .bash("mkfifo d/fifo && cp m1.radar d/m1.radar")
        .ended(0);
    let run = folder.bash("timeout 10 radar-archive check d");
    assert!(
        run.text().ends_with("d/m1.radar: accepted\n"),
        "{}",
        run.story()
    );
    assert_ne!(run.status.code(), Some(124), "{}", run.story());
}
