//! `manifest verify`: a manifest of which a line is wrong is refused, and nothing else is read.

mod support;

use std::os::unix::fs::symlink;
use support::files::{Picture, SETTINGS};
use support::Folder;

const FIRST: &str = "# radar-archive manifest 1\n";

/// A sum that no file has.
fn sum() -> String {
    "0123456789abcdef".repeat(4)
}

/// A folder `d` with a file, and a file outside.
fn folder() -> Folder {
    let folder = Folder::new();
    folder.folder("d");
    folder.write("d/x", &Picture::sample().file(SETTINGS[0]));
    folder.write("outside", b"outside");
    folder
}

/// Wants that a manifest is refused for this line and reason, and that the folder was not gone through: a link that leads nowhere is not
/// told.
#[track_caller]
fn refused(folder: &Folder, manifest: &[u8], line: usize, reason: &str) {
    let _ = symlink("nowhere", folder.path("d/nowhere")); // it stands there from the second time on
    folder.write("d/MANIFEST.sha256", manifest);
    let run = folder.run("manifest verify d");
    run.printed_nothing(3);
    let begin = "radar-archive: d/MANIFEST.sha256: is not right as a manifest: ";
    let wanted = format!("{begin}line {line}: {reason}");
    assert!(
        run.notes().starts_with(&wanted),
        "{wanted}\n{}",
        run.story()
    );
    assert_eq!(run.notes().lines().count(), 1, "{}", run.story());
    let run = folder.run("manifest verify --json --quiet d");
    let object = run.ended(3).json_lines().remove(0);
    assert_eq!(object.at("path").text(), "d/MANIFEST.sha256");
    assert!(
        object.at("error").text().contains(reason),
        "{}",
        run.story()
    );
}

#[test]
fn paths_that_lead_out_or_twice_to_one_file() {
    let folder = folder();
    let outside = folder.path("outside");
    let whole = outside.to_str().expect("text");
    let cases = [
        ("", "the path is empty"),
        ("../outside", "the path has the component '..'"),
        ("a/../../outside", "the path has the component '..'"),
        ("..", "the path has the component '..'"),
        (".", "the path has the component '.'"),
        ("./x", "the path has the component '.'"),
        ("a//x", "the path has an empty component"),
        ("x/", "the path has an empty component"),
        ("/", "the path begins with '/'"),
        (whole, "the path begins with '/'"),
        ("-", "the path is '-', which is standard input"),
        ("x\0", "the path has a zero byte"),
        ("x\r", "a carriage return"),
    ];
    for (path, reason) in cases {
        for (mark, middle) in [("", "  "), ("", " *"), ("\\", "  ")] {
            let manifest = format!("{FIRST}{mark}{}{middle}{path}\n", sum());
            refused(&folder, manifest.as_bytes(), 2, reason);
        }
    }
}

#[test]
fn a_path_twice() {
    let folder = folder();
    let sum = sum();
    let twice = format!("{FIRST}{sum}  x\n# between\n{sum}  y\n{sum} *x\n");
    refused(
        &folder,
        twice.as_bytes(),
        5,
        "the path stands in line 2 already",
    );
    let escaped = format!("{FIRST}{sum}  x\n\\{sum}  x\n");
    refused(
        &folder,
        escaped.as_bytes(),
        3,
        "the path stands in line 2 already",
    );
    let standing = format!("{FIRST}{sum}  ./-\n{sum}  ./-\n");
    refused(
        &folder,
        standing.as_bytes(),
        3,
        "the path stands in line 2 already",
    );
}

#[test]
fn lines_that_are_none() {
    let folder = folder();
    let sum = sum();
    let none = "it is not 64 hexadecimal digits, two spaces";
    let cases = [
        ("x".to_string(), none),
        (sum.clone(), none),
        (format!("{sum} x"), none),
        (format!("{sum}\t x"), none),
        (format!("{sum}x"), none),
        (format!("{}  x", &sum[1..]), none),
        (format!("0{sum}  x"), none),
        (format!("{}  x", sum.replace('f', "g")), none),
        (format!(" {sum}  x"), none),
        (format!("\\\\{sum}  x"), none),
        (format!("{sum}  x").replace("01", "\u{e9}"), none),
        (format!("SHA256 (x) = {sum}"), none),
        (String::new(), "it is empty"),
        (format!("\\{sum}  a\\tb"), "a backslash in the path"),
        (format!("\\{sum}  a\\"), "a backslash in the path"),
    ];
    for (line, reason) in cases {
        let manifest = format!("{FIRST}{line}\n{sum}  later\n");
        refused(&folder, manifest.as_bytes(), 2, reason);
        let manifest = format!("{FIRST}{sum}  earlier\n{line}\n");
        refused(&folder, manifest.as_bytes(), 3, reason);
    }
}

#[test]
fn lines_about_a_picture() {
    let folder = folder();
    let sum = sum();
    let short = &sum[1..];
    let setting = "there are not kind, width and step";
    let cases = [
        (format!("# picture {short}"), "there are not 64 hexadecimal"),
        (format!("# picture {sum} "), "there are not 64 hexadecimal"),
        (format!("# picture {sum}\r"), "there are not 64 hexadecimal"),
        ("# refused 7 picture".to_string(), "there are not a number"),
        ("# refused 5 body".to_string(), "there are not a number"),
        ("# refused 05 counts".to_string(), "there are not a number"),
        ("# refused 5".to_string(), "there are not a number"),
        ("# setting 1".to_string(), setting),
        ("# setting 6 0 0".to_string(), setting),
        ("# setting 3 1 256".to_string(), setting),
        ("# setting 3 1 4 5".to_string(), setting),
        ("# setting 3 1 04".to_string(), setting),
        ("# setting 3 1 +4".to_string(), setting),
        ("# setting 3 1 4294967297".to_string(), setting),
    ];
    for (line, reason) in cases {
        let manifest = format!("{FIRST}{line}\n{sum}  x\n");
        refused(&folder, manifest.as_bytes(), 2, reason);
    }
}

#[test]
fn lines_about_a_picture_twice_or_of_no_file() {
    let folder = folder();
    let sum = sum();
    let picture = format!("# picture {sum}\n");
    for second in [&picture, "# refused 5 counts\n"] {
        let manifest = format!("{FIRST}{picture}{second}{sum}  x\n");
        refused(&folder, manifest.as_bytes(), 3, "a second such line");
    }
    for last in [&picture, "# setting 1 0 0\n", "# refused 1 short\n"] {
        let manifest = format!("{FIRST}{sum}  x\n{last}# end\n");
        refused(
            &folder,
            manifest.as_bytes(),
            4,
            "the line of the file that is meant",
        );
    }
}

#[test]
fn first_lines() {
    let folder = folder();
    let line = format!("{}  x\n", sum());
    let not = "it is not '# radar-archive manifest 1'";
    for first in [
        "",
        "\n",
        "# radar-archive manifest\n",
        " # radar-archive manifest 1\n",
    ] {
        refused(&folder, format!("{first}{line}").as_bytes(), 1, not);
    }
    for first in ["2", "1 ", "01", "1\t", "10", ""] {
        let manifest = format!("# radar-archive manifest {first}\n{line}");
        refused(
            &folder,
            manifest.as_bytes(),
            1,
            "another version of manifests",
        );
    }
}

#[test]
fn other_files_than_manifests() {
    let folder = folder();
    let line = format!("{}  x\n", sum());
    let not = "it is not '# radar-archive manifest 1'";
    let ended = format!("{FIRST}{line}").replace('\n', "\r\n");
    refused(
        &folder,
        ended.as_bytes(),
        1,
        "the line ends in a carriage return",
    );
    for other in [
        &b""[..],
        b"\0\0",
        b"x",
        b"# radar",
        &Picture::sample().file(SETTINGS[1]),
    ] {
        refused(&folder, other, 1, not);
    }
    let binary: Vec<u8> = (0..100_000u32)
        .map(|at| (at.wrapping_mul(at) >> 3) as u8)
        .collect();
    refused(&folder, &binary, 1, not);
}

#[test]
fn cut_off_at_every_byte() {
    let folder = folder();
    folder.write("d/y", b"refused");
    folder.run("manifest write d").ended(1);
    let whole = folder.read("d/MANIFEST.sha256");
    let about = whole.iter().rposition(|byte| *byte == b'#').expect("it");
    for length in (0..whole.len()).filter(|length| length % 61 == 0 || *length > about) {
        folder.write("d/MANIFEST.sha256", &whole[..length]);
        let run = folder.run("manifest verify -q d");
        let at_a_line = whole[..length].ends_with(b"\n");
        match run.status.code() {
            Some(3) => run.failed("d/MANIFEST.sha256: is not right as a manifest: line "),
            Some(1) if at_a_line => run.text(),
            _ => panic!("{length}: {}", run.story()),
        };
    }
    folder.write("d/MANIFEST.sha256", &whole);
    folder.run("manifest verify -q d").quiet();
}

/// Whether a byte is of the word after # in a line, without which the line is another comment.
fn of_a_comments_word(text: &[u8], at: usize) -> bool {
    let line = text[..at].rsplit(|byte| *byte == b'\n').next();
    let begin = line.map_or(0, <[u8]>::len);
    text[at - begin] == b'#' && begin < "# picture ".len()
}

#[test]
fn every_byte_changed_is_refused_or_told() {
    let folder = folder();
    folder.run("manifest write d").printed("");
    let whole = folder.read("d/MANIFEST.sha256");
    let text = String::from_utf8_lossy(&whole).into_owned();
    let about = text.find("# setting").expect("the file's lines");
    for at in (0..FIRST.len()).chain(about..whole.len()) {
        for byte in [whole[at] ^ 1, b'\n', b'\\', b'0'] {
            let mut changed = whole.clone();
            changed[at] = byte;
            folder.write("d/MANIFEST.sha256", &changed);
            let run = folder.run("manifest verify -q d");
            let right = run.status.success() == (changed == whole);
            let free = at >= about && of_a_comments_word(&whole, at);
            assert!(right || free, "{at}: {}", run.story());
        }
    }
}

#[test]
fn other_comments_and_a_line_without_a_picture() {
    let folder = folder();
    let sum = folder.bash("cd d && sha256sum x").text();
    let binary = sum.replace("  x", " *x").to_uppercase().replace('X', "x");
    for line in [sum, binary] {
        let manifest = format!("{FIRST}#\n# kept by the archive\r\n#picture\n{line}# end\n");
        folder.write("d/MANIFEST.sha256", manifest.as_bytes());
        folder.run("manifest verify d").printed("d/x: unchanged\n");
    }
    folder.write("d/x", &Picture::sample().file(SETTINGS[1]));
    let told = "d/x: changed, other bytes, now a picture\n";
    assert_eq!(folder.run("manifest verify d").ended(1).text(), told);
}
