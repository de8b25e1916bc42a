//! `--json` of the lookups and of `info`: one JSON object on one line.

mod support;

use support::files::{with_field, Picture, SAMPLE};
use support::json::Json;
use support::Folder;

#[test]
fn the_parser_is_strict() {
    let wrong = [
        "",
        "nul",
        "{",
        "[1,]",
        "[1 2]",
        "{\"a\":1,}",
        "{\"a\":1,\"a\":2}",
        "{a:1}",
        "01",
        "1.",
        ".5",
        "+1",
        "-",
        "1e",
        "\"\n\"",
        "\"\\x\"",
        "\"\\u12g4\"",
        "\"\\ud800\"",
        "\"",
        "1 1",
        "'a'",
        "[1]]",
        "NaN",
        "True",
    ];
    for text in wrong {
        assert!(Json::parse(text).is_err(), "{text}");
    }
    assert_eq!(Json::of(" [1, -2.5e1,\"\\u00e9\\ud83d\\ude00\\n\"] "), {
        let text = Json::String("\u{e9}\u{1f600}\n".to_string());
        Json::Array(vec![Json::Number(1), Json::Fraction(-25.0), text])
    });
    assert_eq!(Json::of("{\"a\":[],\"b\":{}}").keys(), ["a", "b"]);
}

#[test]
fn the_lookups() {
    let folder = Folder::with_samples();
    folder.write(
        "plane",
        &Picture::of(&[3, 4], 0, SAMPLE.to_vec()).file([2, 0, 0]),
    );
    let cases = [
        ("cell m2.radar --at 10", "{\"word\":300}"),
        ("cell m2.radar --at 0", "{\"word\":0}"),
        ("rank m2.radar --at 10", "{\"rank\":3,\"before\":3}"),
        ("rank m2.radar --at 9", "{\"rank\":null,\"before\":3}"),
        ("count m2.radar --from 3 --to 9", "{\"count\":2}"),
        ("count plane --from 0,3 --to 2,3", "{\"count\":3}"),
        (
            "position m2.radar --rank 3",
            "{\"position\":10,\"coordinates\":[10]}",
        ),
        (
            "position plane --rank 3",
            "{\"position\":10,\"coordinates\":[2,2]}",
        ),
        (
            "box plane --low 0,1 --high 1,3",
            "{\"dimensions\":[2,3],\"words\":[0,7,9,5,0,0]}",
        ),
        (
            "box m2.radar --low 2 --high 2",
            "{\"dimensions\":[1],\"words\":[7]}",
        ),
        ("shorter m1.radar m2.radar", "{\"shorter\":\"m2.radar\"}"),
    ];
    for (call, expected) in cases {
        let run = folder.run(&format!("{call} --json"));
        assert_eq!(run.json(), Json::of(expected), "{}", run.story());
    }
}

#[test]
fn info_has_what_it_prints_as_text() {
    let folder = Folder::new();
    let picture = Picture::of(&[3, 4], 0, SAMPLE.to_vec());
    folder.write("p", &picture.file([3, 1, 2]));
    let run = folder.run("info --json p");
    let info = run.json();
    let expected = [
        ("kind", "3"),
        ("width", "1"),
        ("step", "2"),
        ("dimensions", "[3,4]"),
        ("cells", "12"),
        ("empty", "0"),
        ("stored", "4"),
        ("runs", "3"),
        ("length", "80"),
        ("path", "\"p\""),
    ];
    for (key, value) in expected {
        assert_eq!(*info.at(key), Json::of(value), "{key}: {}", run.story());
    }
}

#[test]
fn a_refusal_with_json_is_told_on_standard_error() {
    let folder = Folder::with_samples();
    for call in [
        "cell m2.radar --at 12",
        "rank m2.radar --at 12",
        "position m2.radar --rank 4",
        "count m2.radar --from 4 --to 3",
    ] {
        let run = folder.run(&format!("{call} --json"));
        run.refused(8);
        for line in run.text().lines() {
            Json::parse(line).unwrap_or_else(|e| panic!("{e}\n{}", run.story()));
        }
    }
}

/// A call of each command that has `--json`, but for `check`; the file comes last.
const CALLS: [&str; 8] = [
    "info --json",
    "cell --json --at 0",
    "rank --json --at 0",
    "position --json --rank 0",
    "count --json --from 0 --to 1",
    "box --json --low 0 --high 1",
    "shorter --json m1.radar",
    "diff --json m1.radar",
];

#[test]
fn a_refused_file() {
    let folder = Folder::with_samples();
    folder.write("bad", &with_field(&folder.read("m2.radar"), 24, 13));
    for call in CALLS {
        let run = folder.run(&format!("{call} bad"));
        let message = run.refused(5);
        let message = message.strip_suffix(" (byte 24)").expect("the byte");
        let object = format!(
            "{{\"path\":\"bad\",\"refused\":{{\"number\":5,\"word\":\"counts\",\"message\":\"{message}\",\"byte\":24}}}}"
        );
        assert_eq!(run.json_lines(), [Json::of(&object)], "{}", run.story());
    }
}

#[test]
fn a_refused_place() {
    let folder = Folder::with_samples();
    for call in [
        "cell --at 12",
        "rank --at 12",
        "position --rank 4",
        "count --from 0 --to 12",
        "count --from 12 --to 0",
        "count --from 4 --to 3",
    ] {
        let run = folder.run(&format!("{call} --json m2.radar"));
        let message = run.refused(8);
        let lines = run.json_lines();
        let refused = lines[0].at("refused");
        assert_eq!(lines[0].at("path").text(), "m2.radar");
        assert_eq!(refused.at("message").text(), message);
        assert_eq!(*refused.at("number"), Json::Number(8));
        assert_eq!(*refused.at("byte"), Json::Null);
        folder.run(&format!("{call} m2.radar")).printed_nothing(1);
    }
}

#[test]
fn a_file_that_is_not_there() {
    let folder = Folder::with_samples();
    for call in CALLS {
        let run = folder.run(&format!("{call} missing"));
        run.failed("missing");
        let lines = run.json_lines();
        assert_eq!(lines.len(), 1, "{}", run.story());
        assert_eq!(lines[0].keys(), ["error", "path"], "{}", run.story());
        assert_eq!(lines[0].at("path").text(), "missing");
    }
    folder.run("cell --json --at 0").printed_nothing(2);
}
