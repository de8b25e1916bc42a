//! `check --json`: a JSON value a line, of the form that the specification gives.

mod support;

use std::ffi::OsStr;
use std::os::unix::ffi::OsStrExt;
use support::files::{damaged, Picture, SETTINGS};
use support::json::Json;
use support::{Folder, WORDS};

#[test]
fn check_of_accepted_files() {
    let folder = Folder::with_samples();
    let run = folder.run("check --json m1.radar m2.radar m3.radar m4.radar m5.radar m6.radar");
    run.ended(0);
    let lines = run.json_lines();
    for ((number, line), [kind, width, step]) in (1..).zip(&lines).zip(SETTINGS) {
        let length = Picture::sample().file([kind, width, step]).len();
        let expected = format!(
            "{{\"path\":\"m{number}.radar\",\"accepted\":true,\"number\":0,\"word\":\"accepted\",\"kind\":{kind},\
             \"width\":{width},\"step\":{step},\"dimensions\":[12],\"cells\":12,\"empty\":0,\"stored\":4,\
             \"length\":{length}}}"
        );
        assert_eq!(*line, Json::of(&expected), "{}", run.story());
    }
    let summary =
        "{\"summary\":{\"files\":6,\"accepted\":6,\"refused\":0,\"unread\":0,\"hidden\":0,\"unmatched\":0}}";
    assert_eq!(lines[6..], [Json::of(summary)], "{}", run.story());
}

#[test]
fn check_of_refused_files() {
    let folder = Folder::new();
    for (number, byte, file) in damaged() {
        folder.write("bad", &file);
        let run = folder.run("check --json bad");
        run.ended(1);
        let lines = run.json_lines();
        let refused = &lines[0];
        let keys = [
            "accepted", "byte", "length", "message", "number", "path", "word",
        ];
        assert_eq!(refused.keys(), keys, "{}", run.story());
        assert_eq!(*refused.at("accepted"), Json::Bool(false));
        assert_eq!(
            *refused.at("number"),
            Json::Number(number as u64),
            "{}",
            run.story()
        );
        assert_eq!(refused.at("word").text(), WORDS[number]);
        assert_eq!(*refused.at("length"), Json::Number(file.len() as u64));
        let byte = byte.map_or(Json::Null, |byte| Json::Number(byte.into()));
        assert_eq!(*refused.at("byte"), byte, "{}", run.story());
        let message = refused.at("message").text();
        assert!(
            message.contains(' ') && !message.contains("(byte"),
            "{}",
            run.story()
        );
        let plain = folder.run("check bad").text();
        assert!(plain.contains(message), "{plain}\n{}", run.story());
        let summary =
            "{\"summary\":{\"files\":1,\"accepted\":0,\"refused\":1,\"unread\":0,\"hidden\":0,\"unmatched\":0}}";
        assert_eq!(lines[1..], [Json::of(summary)], "{}", run.story());
    }
}

#[test]
fn check_of_files_that_cannot_be_read() {
    let folder = Folder::with_samples();
    folder.write("bad", b"bad");
    let run = folder.run("check --json m1.radar missing bad");
    run.ended(3);
    let lines = run.json_lines();
    assert_eq!(lines[1].keys(), ["accepted", "error", "path"]);
    assert_eq!(lines[1].at("path").text(), "missing");
    assert_eq!(*lines[1].at("accepted"), Json::Bool(false));
    assert!(!lines[1].at("error").text().is_empty());
    let summary =
        "{\"summary\":{\"files\":3,\"accepted\":1,\"refused\":1,\"unread\":1,\"hidden\":0,\"unmatched\":0}}";
    assert_eq!(lines[3], Json::of(summary), "{}", run.story());
}

#[test]
fn names_of_all_sorts() {
    let folder = Folder::new();
    let m2 = Picture::sample().file(SETTINGS[1]);
    let names: [&[u8]; 8] = [
        b"plain",
        b"with space",
        b"with\nnewline",
        b"tab\tquote\"back\\slash",
        b"\x01\x1f\x7f",
        "\u{e9}\u{1f600}".as_bytes(),
        b"\xff\xfe",
        b"half\xc3",
    ];
    for name in names {
        folder.write(OsStr::from_bytes(name), &m2);
        let run = folder.run_all([
            OsStr::new("check"),
            OsStr::new("--json"),
            OsStr::from_bytes(name),
        ]);
        run.ended(0);
        let line = &run.json_lines()[0];
        assert_eq!(
            line.at("path").text(),
            String::from_utf8_lossy(name),
            "{}",
            run.story()
        );
        match std::str::from_utf8(name) {
            Ok(_) => assert!(!line.keys().contains(&"path_hex"), "{}", run.story()),
            Err(_) => {
                let hex: String = name.iter().map(|byte| format!("{byte:02x}")).collect();
                assert_eq!(line.at("path_hex").text(), hex, "{}", run.story());
            }
        }
        folder.remove(OsStr::from_bytes(name));
    }
}

#[test]
fn names_that_are_not_utf_8_in_every_sort_of_line() {
    let folder = Folder::new();
    let name = OsStr::from_bytes(b"n\xff");
    let check = |folder: &Folder| {
        let run = folder.run_all([OsStr::new("check"), OsStr::new("--json"), name]);
        run.json_lines()[0].at("path_hex").text().to_string()
    };
    assert_eq!(check(&folder), "6eff");
    folder.write(name, b"bad");
    assert_eq!(check(&folder), "6eff");
    let m2 = Picture::sample().file(SETTINGS[1]);
    folder.write(name, &m2);
    assert_eq!(check(&folder), "6eff");
    folder.write("longer", &Picture::sample().file(SETTINGS[0]));
    let run = folder.run_all([
        OsStr::new("shorter"),
        OsStr::new("--json"),
        OsStr::new("longer"),
        name,
    ]);
    assert_eq!(run.json().at("shorter").text(), "n\u{fffd}");
}

#[test]
fn a_folder_with_hidden_names() {
    let folder = Folder::new();
    folder.folder("d/.git/sub");
    folder.write("d/.git/sub/a", b"");
    folder.write("d/.b", b"");
    folder.write("d/c", &Picture::sample().file(SETTINGS[0]));
    let run = folder.run("check --json d");
    let summary =
        "{\"summary\":{\"files\":1,\"accepted\":1,\"refused\":0,\"unread\":0,\"hidden\":2,\"unmatched\":0}}";
    assert_eq!(
        run.ended(0).json_lines()[1],
        Json::of(summary),
        "{}",
        run.story()
    );
    let run = folder.run("check --json --all d");
    let summary =
        "{\"summary\":{\"files\":3,\"accepted\":1,\"refused\":2,\"unread\":0,\"hidden\":0,\"unmatched\":0}}";
    assert_eq!(
        run.ended(1).json_lines()[3],
        Json::of(summary),
        "{}",
        run.story()
    );
}

#[test]
fn quiet_leaves_the_accepted_files_out() {
    let folder = Folder::with_samples();
    folder.write("bad", b"bad");
    let run = folder.run("check --json --quiet m1.radar bad m2.radar");
    let lines = run.ended(1).json_lines();
    assert_eq!(lines.len(), 2, "{}", run.story());
    assert_eq!(lines[0].at("path").text(), "bad");
    let summary =
        "{\"summary\":{\"files\":3,\"accepted\":2,\"refused\":1,\"unread\":0,\"hidden\":0,\"unmatched\":0}}";
    assert_eq!(lines[1], Json::of(summary));
}
