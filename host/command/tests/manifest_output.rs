//! `manifest`: its arguments, its JSON, at a terminal, and a thousand files.

mod support;

use std::ffi::OsStr;
use std::os::unix::ffi::OsStrExt;
use std::time::{Duration, Instant};
use support::files::{with_field, Picture, SETTINGS};
use support::json::Json;
use support::Folder;

/// A folder whose folder `d` has the sample picture in each kind, a refused file, and a manifest.
fn folder() -> Folder {
    let folder = Folder::new();
    folder.folder("d");
    for setting in SETTINGS {
        let name = format!("d/{}", setting[0]);
        folder.write(name, &Picture::sample().file(setting));
    }
    folder.write("d/refused", b"short");
    folder.run("manifest write d").refused(1);
    folder
}

#[test]
fn usage() {
    let folder = folder();
    let state = folder.state("d/MANIFEST.sha256");
    let cases = [
        ("manifest", "'manifest' wants write or verify and DIR"),
        ("manifest write", "'manifest' wants DIR"),
        ("manifest verify", "'manifest' wants DIR"),
        ("manifest d", "'manifest' wants DIR"),
        ("manifest read d", "takes write or verify, not 'read'"),
        ("manifest d write", "takes write or verify, not 'd'"),
        ("manifest write d d", "'d' is one too many"),
        ("manifest write d -q", "--quiet goes with 'manifest verify'"),
        (
            "manifest write d --json",
            "--json goes with 'manifest verify'",
        ),
        ("manifest write d -m x", "-m goes with 'manifest verify'"),
        ("manifest verify d -o x", "-o goes with 'manifest write'"),
        ("manifest verify d -f", "--force goes with 'manifest write'"),
        ("manifest write d --output=", "-o: '' names no file"),
        ("manifest verify d --manifest=", "-m: '' names no file"),
        ("manifest verify d --manifset x", "did you mean --manifest?"),
        ("manifest verify d -m", "the option -m wants FILE"),
        ("manifest write d --kind 1", "unknown option '--kind'"),
    ];
    for (call, why) in cases {
        let notes = folder.run(call).usage("manifest");
        assert!(notes.contains(why), "{call}: {notes}");
    }
    let notes = folder.run("manifset write d").usage("");
    assert!(notes.contains("did you mean manifest?"), "{notes}");
    let strange = OsStr::from_bytes(b"\xff");
    folder
        .run_all([OsStr::new("manifest"), strange, OsStr::new("d")])
        .usage("manifest");
    assert_eq!(folder.state("d/MANIFEST.sha256"), state);
}

/// The sum of a file by sha256sum itself.
fn sum(folder: &Folder, name: &str) -> Json {
    let text = folder.bash(&format!("sha256sum < d/{name}")).text();
    Json::String(text.split(' ').next().expect("a sum").to_string())
}

/// A folder with a file of each state.
fn of_each_state() -> Folder {
    let folder = folder();
    folder.write("d/1", &Picture::sample().file([4, 2, 0]));
    folder.write("d/3", &with_field(&folder.read("d/3"), 20, 77));
    folder.write("d/4", b"");
    folder.remove("d/5");
    folder.write("d/new", b"");
    std::os::unix::fs::symlink("nowhere", folder.path("d/unread")).expect("a link");
    folder
}

#[test]
fn json_of_each_state() {
    let folder = of_each_state();
    let run = folder.run("manifest verify --json d");
    let lines = run.ended(3).json_lines();
    assert_eq!(run.notes(), "", "{}", run.story());
    let wanted = [
        ("1", "re-encoded", "file manifest message path state"),
        ("2", "unchanged", "file manifest path state"),
        ("3", "changed", "file manifest message path state"),
        ("4", "changed", "file manifest message path state"),
        ("6", "unchanged", "file manifest path state"),
        ("new", "new", "message path state"),
        ("refused", "unchanged", "file manifest path state"),
        ("unread", "unread", "error path state"),
        ("5", "missing", "manifest message path state"),
    ];
    assert_eq!(lines.len(), wanted.len() + 1, "{}", run.story());
    for (line, (name, state, keys)) in lines.iter().zip(wanted) {
        assert_eq!(line.at("path").text(), format!("d/{name}"));
        assert_eq!(line.at("state").text(), state);
        assert_eq!(line.keys().join(" "), keys);
    }
    let summary = r#"{"summary":{"files":9,"unchanged":3,"re_encoded":1,"changed":2,"missing":1,
                      "new":1,"unread":1,"hidden":0}}"#;
    assert_eq!(lines[9], Json::of(summary));
    let quiet = folder.run("manifest verify --json --quiet d");
    assert_eq!(quiet.ended(3).json_lines().len(), 7);
}

#[test]
fn json_of_manifest_and_file() {
    let whole = folder();
    let (old, picture) = (sum(&whole, "1"), sum(&whole, "2"));
    let folder = of_each_state();
    let lines = folder.run("manifest verify --json d").json_lines();
    let (was, now) = (lines[0].at("manifest"), lines[0].at("file"));
    let sums = |facts: &Json| ["sha256", "picture"].map(|key| facts.at(key).clone());
    assert_eq!(sums(was), [old, picture.clone()]);
    assert_eq!(sums(now), [sum(&folder, "1"), picture]);
    let setting = |facts: &Json| ["kind", "width", "step"].map(|key| facts.at(key).clone());
    assert_eq!(setting(was), [1, 0, 0].map(Json::Number));
    assert_eq!(setting(now), [4, 2, 0].map(Json::Number));
    assert_eq!(lines[2].at("message").text(), "another picture");
    let refused = lines[3].at("file").at("refused");
    assert_eq!(refused.at("number"), &Json::Number(1));
    assert_eq!(refused.keys(), ["byte", "message", "number", "word"]);
    let listed = lines[6].at("manifest").at("refused");
    assert_eq!(listed, &Json::of(r#"{"number":1,"word":"short"}"#));
}

#[test]
fn json_of_names_and_where_all_is_well() {
    let folder = Folder::new();
    folder.folder("d");
    let file = Picture::sample().file(SETTINGS[0]);
    folder.write(OsStr::from_bytes(b"d/\xff\n"), &file);
    folder.run("manifest write d").printed("");
    let lines = folder.run("manifest verify --json d").json_lines();
    assert_eq!(lines[0].at("path_hex").text(), "642fff0a");
    let run = folder.run("manifest verify --quiet --json d");
    run.quiet();
    let lines = run.json_lines();
    assert_eq!(lines.len(), 1);
    assert_eq!(lines[0].at("summary").at("unchanged"), &Json::Number(1));
    let run = folder.bash("radar-archive manifest verify d > /dev/full");
    run.failed("standard output");
}

#[test]
fn a_thousand_files_take_seconds() {
    let folder = Folder::new();
    folder.folder("d");
    for number in 0..1000 {
        let file = Picture::sample().file(SETTINGS[number % 6]);
        folder.write(format!("d/{number:04}"), &file);
    }
    let begin = Instant::now();
    folder.run("manifest write d").printed("");
    folder.run("manifest verify -q d").printed("").quiet();
    let taken = begin.elapsed();
    assert!(taken < Duration::from_secs(60), "{taken:?}");
}

#[test]
fn two_that_replace_one_manifest_at_once() {
    let folder = folder();
    let whole = folder.read("d/MANIFEST.sha256");
    let script = "for i in {1..8}; do radar-archive manifest write d --force & jobs+=($!); done; \
                  for job in ${jobs[@]}; do wait $job; echo $?; done; ls -A d | grep -c tmp";
    let run = folder.bash(script);
    assert_eq!(
        run.text(),
        format!("{}0\n", "1\n".repeat(8)),
        "{}",
        run.story()
    );
    assert_eq!(folder.read("d/MANIFEST.sha256"), whole);
}

#[test]
fn at_a_terminal() {
    let folder = folder();
    let call = |call: &str| {
        folder.bash(&format!(
            "TERM=xterm script -qec '{call}' /dev/null < /dev/null"
        ))
    };
    if !call("true").status.success() {
        eprintln!("no terminal can be made here: not tested");
        return;
    }
    let text = call("radar-archive manifest write d -o -");
    assert!(text
        .ended(1)
        .text()
        .contains("# radar-archive manifest 1\r\n"));
    let told = call("radar-archive manifest verify --no-progress d")
        .ended(0)
        .text();
    assert_eq!(told.matches(": unchanged\r\n").count(), 7, "{told}");
    assert!(!told.contains('\u{1b}'), "{told}");
}

#[test]
fn nothing_is_opened_because_of_a_manifest() {
    let folder = Folder::new();
    folder.folder("d/sub");
    folder.folder("outside");
    folder.bash("mkfifo outside/pipe").ended(0);
    std::os::unix::fs::symlink("../outside", folder.path("d/link")).expect("a link");
    folder.write("d/sub/x", &Picture::sample().file(SETTINGS[0]));
    folder.run("manifest write d").printed("");
    let text = String::from_utf8(folder.read("d/MANIFEST.sha256")).expect("text");
    let sum = "0123456789abcdef".repeat(4);
    let paths = ["link/pipe", "link", "sub", "sub/x/y", "none/pipe"];
    let lines = paths.map(|path| format!("{sum}  {path}\n")).concat();
    folder.write("d/MANIFEST.sha256", format!("{text}{lines}").as_bytes());
    let run = folder.bash("timeout 20 radar-archive manifest verify d");
    assert_eq!(
        run.ended(1).text().matches(": missing, ").count(),
        5,
        "{}",
        run.story()
    );
    assert!(
        run.text().starts_with("d/sub/x: unchanged\n"),
        "{}",
        run.story()
    );
}
