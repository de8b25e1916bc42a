//! What `info` prints.

mod support;

use support::files::{Picture, SETTINGS};
use support::Folder;

/// The rows after the parts, for the sample picture.
const LENGTHS: &str = "\
Kind            Length   Setting
1 runs              92
2 positions         84
3 base-offset       76   --width 1 --step 4
4 jumps             76   --width 1
5 paged-runs        92   --step 3
6 pointed-jumps     80   --width 1 --step 1
";

#[test]
fn the_sample_of_the_specification() {
    let folder = Folder::with_samples();
    let expected = "\
File          m3.radar
Length        80 bytes
Kind          3 base-offset
Width         1
Step          2
Dimensions    12
Cells         12
Empty word    0 (0x00000000)
Stored        4 (33.3 %)
Runs          3

Part          Offset   Bytes
header             0      52
bases             52       8
offsets           60       4
words             64      16

";
    let run = folder.run("info m3.radar");
    run.printed(&format!("{expected}{LENGTHS}")).quiet();
}

/// The value of a line `Name    value`.
fn value(text: &str, name: &str) -> String {
    let line = text.lines().find(|line| line.starts_with(name));
    let line = line.unwrap_or_else(|| panic!("no {name}:\n{text}"));
    line[name.len()..].trim().to_string()
}

/// The rows of the parts: name, offset, bytes.
fn parts(text: &str) -> Vec<(String, u32, u32)> {
    let rows = text.lines().skip_while(|line| !line.starts_with("Part "));
    let rows = rows.skip(1).take_while(|line| !line.is_empty());
    let part = |row: &str| {
        let mut words: Vec<_> = row.split_whitespace().collect();
        let bytes = words.pop().expect("bytes").parse().expect("bytes");
        let offset = words.pop().expect("offset").parse().expect("offset");
        (words.join(" "), offset, bytes)
    };
    rows.map(part).collect()
}

#[test]
fn the_parts_follow_each_other_to_the_length() {
    let folder = Folder::with_samples();
    let expected: [&[u32]; 6] = [
        &[52, 24, 16],
        &[52, 16, 16],
        &[52, 8, 4, 16],
        &[52, 4, 4, 16],
        &[52, 16, 24, 16],
        &[52, 4, 4, 4, 16],
    ];
    for (number, expected) in (1..).zip(expected) {
        let run = folder.run(&format!("info m{number}.radar"));
        run.quiet();
        let parts = parts(&run.text());
        let mut at = 0;
        for (name, offset, bytes) in &parts {
            assert_eq!(*offset, at, "{name}\n{}", run.story());
            at += bytes;
        }
        let sizes: Vec<_> = parts
            .iter()
            .map(|(_, _, bytes)| *bytes)
            .filter(|&b| b > 0)
            .collect();
        assert_eq!(sizes, expected, "{}", run.story());
        assert_eq!(value(&run.text(), "Length "), format!("{at} bytes"));
        assert_eq!(parts[0].0, "header");
        assert_eq!(parts[parts.len() - 1].0, "words");
        assert!(run.text().ends_with(LENGTHS), "{}", run.story());
    }
}

#[test]
fn the_pointers_are_told_as_a_part() {
    let folder = Folder::with_samples();
    let expected = "\
Part          Offset   Bytes
header             0      52
jumps             52       4
differences       56       4
pointers          60       4
words             64      16

";
    let text = folder.run("info m6.radar").quiet().text();
    assert!(text.contains(expected), "{text}");
    // Three jumps, so three pointers at step 1, and differences of two bytes.
    let mut words = vec![0; 200_000];
    for position in [0, 70_000, 150_000, 150_001] {
        words[position] = 9;
    }
    let picture = Picture::of(&[200_000], 0, words);
    folder.write("wide", &picture.file([6, 2, 1]));
    let parts = parts(&folder.run("info wide").quiet().text());
    let parts: Vec<_> = parts
        .iter()
        .map(|(name, at, bytes)| (&**name, *at, *bytes))
        .collect();
    let expected = [
        ("header", 0, 52),
        ("jumps", 52, 12),
        ("differences", 64, 8),
        ("pointers", 72, 12),
        ("words", 84, 16),
    ];
    assert_eq!(parts, expected);
}

#[test]
fn the_setting_and_the_counts() {
    let folder = Folder::new();
    let names = [
        "1 runs",
        "2 positions",
        "3 base-offset",
        "4 jumps",
        "5 paged-runs",
        "6 pointed-jumps",
    ];
    let picture = Picture::of(
        &[2, 3, 4],
        0xffff_fff0,
        (0..24).map(|p| 0xffff_fff0 - p % 2).collect(),
    );
    for (setting, name) in SETTINGS.iter().zip(names) {
        folder.write("p.radar", &picture.file(*setting));
        let text = folder.run("info p.radar").quiet().text();
        assert_eq!(value(&text, "File "), "p.radar");
        assert_eq!(value(&text, "Kind "), name);
        assert_eq!(value(&text, "Width "), setting[1].to_string());
        assert_eq!(value(&text, "Step "), setting[2].to_string());
        assert_eq!(value(&text, "Cells "), "24");
        assert_eq!(value(&text, "Empty word "), "4294967280 (0xfffffff0)");
        assert_eq!(value(&text, "Stored "), "12 (50.0 %)");
        assert_eq!(value(&text, "Runs "), "12");
        let extents: Vec<_> = value(&text, "Dimensions ")
            .split(['x', ' '])
            .filter(|w| !w.is_empty())
            .map(str::to_string)
            .collect();
        assert_eq!(extents, ["2", "3", "4"], "{text}");
    }
}

/// The length of each kind's row.
fn lengths(text: &str) -> Vec<(usize, String)> {
    let rows = text
        .lines()
        .skip_while(|line| !line.starts_with("Kind            Length"));
    let row = |row: &str| {
        let mut words = row.split_whitespace().skip(2);
        let length = words.next().expect("a length").parse().expect("a length");
        (length, words.collect::<Vec<_>>().join(" "))
    };
    rows.skip(1).map(row).collect()
}

/// The shortest file of a kind over all its settings, by the second reading.
fn shortest(picture: &Picture, kind: u32) -> (usize, String) {
    let (widths, steps) = match kind {
        1 | 2 => (0..=0, 0..=0),
        3 => (1..=2, 1..=255),
        4 => (1..=2, 0..=0),
        5 => (0..=0, 2..=64),
        _ => (1..=2, 1..=255),
    };
    let mut best: Option<(usize, String)> = None;
    for width in widths {
        for step in steps.clone() {
            let Ok(file) = picture.file_if_fit([kind, width, step]) else {
                continue;
            };
            if best.as_ref().is_none_or(|(length, _)| file.len() < *length) {
                let words = [("--width", width), ("--step", step)];
                let words = words.iter().filter(|(_, number)| *number > 0);
                let words: Vec<_> = words
                    .map(|(name, number)| format!("{name} {number}"))
                    .collect();
                best = Some((file.len(), words.join(" ")));
            }
        }
    }
    best.expect("every kind has a setting that fits")
}

#[test]
fn the_lengths_are_the_shortest_of_each_kind() {
    let folder = Folder::new();
    let pictures = [
        Picture::of(&[12], 0, vec![0; 12]),
        Picture::of(&[12], 0, vec![1; 12]),
        Picture::scattered(&[30, 40], 0, 2),
        Picture::scattered(&[7, 9, 11], 5, 30),
        Picture::scattered(&[3, 2, 50, 40], 0, 300),
        Picture::scattered(&[300, 400], 0, 300),
    ];
    for picture in pictures {
        folder.write("p.radar", &picture.file([1, 0, 0]));
        let run = folder.run("info p.radar");
        run.quiet();
        let expected: Vec<_> = (1..=6).map(|kind| shortest(&picture, kind)).collect();
        assert_eq!(lengths(&run.text()), expected, "{}", run.story());
    }
}

#[test]
fn an_empty_and_a_full_picture() {
    let folder = Folder::new();
    folder.write(
        "empty",
        &Picture::of(&[12], 7, vec![7; 12]).file([5, 0, 64]),
    );
    let text = folder.run("info empty").quiet().text();
    assert_eq!(value(&text, "Stored "), "0 (0.0 %)");
    assert_eq!(value(&text, "Runs "), "0");
    assert_eq!(value(&text, "Length "), "52 bytes");
    folder.write(
        "full",
        &Picture::of(&[3, 4], 0, vec![9; 12]).file([1, 0, 0]),
    );
    let text = folder.run("info full").quiet().text();
    assert_eq!(value(&text, "Stored "), "12 (100.0 %)");
    assert_eq!(value(&text, "Runs "), "1");
}
