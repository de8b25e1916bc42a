//! `check --files0-from`: the names in a list.

mod support;

use std::process::{Command, Stdio};
use std::time::Duration;
use support::{process, Folder};

const CALL: &str = "check --files0-from list";

/// The sample files, and a list of these bytes.
fn with_list(list: &[u8]) -> Folder {
    let folder = Folder::with_samples();
    folder.write("list", list);
    folder
}

#[test]
fn a_list_is_checked_as_operands_are() {
    let folder = with_list(b"m3.radar\0m1.radar\0d\0m1.radar\0missing\0");
    folder.folder("d/e");
    folder.write("d/e/x\ny", b"bad");
    folder.write("d/.hidden", b"bad");
    let run = folder.run(CALL);
    let operands = folder.run("check m3.radar m1.radar d m1.radar missing");
    operands.failed("missing");
    assert_eq!(operands.text().lines().count(), 4);
    assert_eq!(
        (run.ended(3).text(), run.notes()),
        (operands.text(), operands.notes())
    );
    let list = folder.read("list");
    for call in ["check --files0-from -", "check --files0-from=- -j 3"] {
        let run = folder.run_on(&list, call);
        assert_eq!(
            (run.text(), run.notes()),
            (operands.text(), operands.notes())
        );
    }
    let json = folder.run("check --json --files0-from list");
    assert_eq!(json.ended(3).json_lines().len(), 6);
}

#[test]
fn names_of_any_bytes_and_a_missing_last_zero() {
    let folder = with_list(b"one\ntwo\0-q\0m2.radar");
    for name in ["one\ntwo", "-q"] {
        folder.write(name, &folder.read("m1.radar"));
    }
    let run = folder.run(CALL);
    run.printed("one\\ntwo: accepted\n-q: accepted\nm2.radar: accepted\n");
    let found =
        folder.bash("find . -name 'm*' -print0 | sort -z | radar-archive check --files0-from -");
    assert_eq!(
        found.ended(0).text().lines().count(),
        6,
        "{}",
        found.story()
    );
}

#[test]
fn an_empty_list_is_said_and_no_error() {
    let folder = with_list(b"");
    let run = folder.run(CALL);
    run.printed("");
    assert_eq!(
        run.notes(),
        "list: no names\n0 files: 0 accepted, 0 refused, 0 not read\n"
    );
    folder.run_on(b"", "check --files0-from -").printed("");
}

#[test]
fn an_entry_that_names_no_file_is_said_before_any_is_checked() {
    let cases: [(&[u8], usize); 6] = [
        (b"\0", 1),
        (b"m1.radar\0\0m2.radar\0", 2),
        (b"m1.radar\0m2.radar\0\0", 3),
        (b"\0m1.radar", 1),
        (b"-\0m1.radar\0-\0", 3),
        (&[b'n'; 1 << 21], 1),
    ];
    for (list, entry) in cases {
        let folder = with_list(list);
        let run = folder.run(CALL);
        let notes = run.failed(&format!("radar-archive: list: entry {entry} "));
        assert_eq!(run.text(), "", "{}", run.story());
        assert_eq!(notes.lines().count(), 1, "{notes}");
        assert!(notes.len() < 300, "{notes}");
    }
    let folder = Folder::with_samples();
    let run = folder.run_on(b"m1.radar\0-\0", "check --files0-from -");
    let notes = run.failed("radar-archive: -: entry 2 is '-', standard input");
    assert!(notes.contains("./-"), "{notes}");
    assert_eq!(run.text(), "");
}

#[test]
fn standard_input_is_a_name_in_a_list_of_a_file() {
    let folder = with_list(b"m1.radar\0-\0");
    let m2 = folder.read("m2.radar");
    folder
        .run_on(&m2, CALL)
        .printed("m1.radar: accepted\n-: accepted\n");
}

#[test]
fn a_huge_name_is_not_read_and_the_others_are() {
    let long = [b"m1.radar\0", &vec![b'n'; 100_000][..], b"\0m2.radar\0"].concat();
    let folder = with_list(&long);
    let run = folder.run(CALL);
    run.failed("nnn: cannot be read: File name too long");
    assert_eq!(run.text(), "m1.radar: accepted\nm2.radar: accepted\n");
}

#[test]
fn a_list_without_an_end_is_no_standstill() {
    for endless in ["/dev/zero", "<(yes)"] {
        let folder = Folder::new();
        let script = format!("exec radar-archive check --files0-from {endless}");
        let mut child = folder
            .bash_command(&script)
            .stdin(Stdio::null())
            .stdout(Stdio::null())
            .stderr(Stdio::null())
            .spawn()
            .expect("bash");
        let status = process::end(&mut child, Duration::from_secs(30));
        assert_eq!(status.code(), Some(3), "{endless}");
    }
}

#[test]
fn a_list_that_cannot_be_read() {
    let folder = Folder::with_samples();
    folder.folder("d");
    for list in ["missing", "d", "m1.radar/x"] {
        let run = folder.run(&format!("check --files0-from {list}"));
        run.failed(&format!("radar-archive: {list}: cannot be read: "));
        assert_eq!(run.text(), "");
    }
    let json = folder.run("check --json --files0-from missing");
    assert_eq!(json.ended(3).json_lines()[0].at("path").text(), "missing");
}

#[test]
fn a_list_and_operands_are_not_understood_together() {
    let folder = with_list(b"m1.radar\0");
    let notes = folder.run(&format!("{CALL} m2.radar")).usage("check");
    assert!(notes.contains("'m2.radar'"), "{notes}");
    folder.run("check -q").usage("check");
    folder
        .run_all(["check", "--files0-from", ""])
        .usage("check");
    folder
        .run(&format!("{CALL} --files0-from list"))
        .usage("check");
    let du = Command::new("du")
        .arg("--files0-from=list")
        .current_dir(folder.path(""))
        .output();
    assert!(
        du.is_ok_and(|du| du.status.success()),
        "du reads the same list"
    );
}
