//! `diff`: the cells in which two pictures differ.

mod support;

use std::time::{Duration, Instant};
use support::files::{pictures, raw, Picture, ALL_KINDS, SETTINGS};
use support::json::Json;
use support::{Folder, Outcome};

/// Wants exit status 1 and exactly this standard output and standard error.
#[track_caller]
fn differ(run: &Outcome, lines: &str, notes: &str) {
    run.ended(1);
    assert_eq!(run.text(), lines, "{}", run.story());
    assert_eq!(run.notes(), notes, "{}", run.story());
}

/// A folder with the sample files and the plane `p`, of the sample's words with two of them changed.
fn folder() -> Folder {
    let folder = Folder::with_samples();
    let mut picture = Picture::sample();
    (picture.words[3], picture.words[11]) = (0, 0xffff_ffff);
    folder.write("p", &picture.file([3, 1, 3]));
    folder
}

#[test]
fn one_picture_in_two_files() {
    let folder = Folder::new();
    for picture in pictures() {
        for (setting, other) in ALL_KINDS.iter().zip(ALL_KINDS.iter().rev()) {
            folder.write("a", &picture.file(*setting));
            folder.write("b", &picture.file(*other));
            for call in ["diff a b", "diff a a", "diff -q a b", "diff --hex a b"] {
                folder.run(call).printed("").quiet();
            }
        }
    }
}

#[test]
fn cells_that_differ() {
    let folder = folder();
    let summary = "2 of 12 cells differ\n";
    for sample in 1..=6 {
        let run = folder.run(&format!("diff m{sample}.radar p"));
        differ(&run, "3 9 0\n11 0 4294967295\n", summary);
    }
    let run = folder.run("diff p m1.radar --hex");
    let lines = "3 0x00000000 0x00000009\n11 0xffffffff 0x00000000\n";
    differ(&run, lines, summary);
    let p = folder.read("p");
    let lines = "3 9 0\n11 0 4294967295\n";
    differ(&folder.run_on(&p, "diff m2.radar -"), lines, summary);
    for call in ["diff -q m1.radar p", "diff --quiet p m1.radar --json --hex"] {
        differ(&folder.run(call), "", "");
    }
}

#[test]
fn places_are_coordinates() {
    let folder = Folder::new();
    let empty = Picture::of(&[2, 3, 2, 2], 7, vec![7; 24]);
    let mut other = empty.clone();
    (other.words[0], other.words[23], other.words[6]) = (1, 2, 3);
    folder.write("a", &empty.file([1, 0, 0]));
    folder.write("b", &other.file([5, 0, 2]));
    let lines = "0,0,0,0 7 1\n0,1,1,0 7 3\n1,2,1,1 7 2\n";
    differ(&folder.run("diff a b"), lines, "3 of 24 cells differ\n");
}

#[test]
fn objects() {
    let folder = Folder::new();
    let plane = Picture::of(&[3, 4], 0, Picture::sample().words);
    folder.write("a", &plane.file([2, 0, 0]));
    let mut other = plane.clone();
    other.words[10] = 0;
    folder.write("b", &other.file([4, 1, 0]));
    let run = folder.run("diff --json a b --hex");
    run.ended(1);
    let cell = "{\"position\":10,\"coordinates\":[2,2],\"word_a\":300,\"word_b\":0}";
    let summary = "{\"summary\":{\"cells\":12,\"differ\":1,\"empty_a\":0,\"empty_b\":0}}";
    assert_eq!(run.json_lines(), [Json::of(cell), Json::of(summary)]);
    assert_eq!(run.notes(), "1 of 12 cells differ\n");
    let same = folder.run("diff --json a a").json();
    assert_eq!(
        same,
        Json::of(&summary.replace("\"differ\":1", "\"differ\":0"))
    );
}

#[test]
fn other_dimensions_are_refused_with_11() {
    let folder = folder();
    let plane = Picture::of(&[3, 4], 0, Picture::sample().words);
    folder.write("plane", &plane.file(SETTINGS[0]));
    folder.write(
        "line",
        &Picture::of(&[12, 1], 0, plane.words).file([1, 0, 0]),
    );
    for (call, dimensions) in [
        ("diff m1.radar plane", "12 and 3x4"),
        ("diff plane line", "3x4 and 12x1"),
        ("diff -q line m1.radar", "12x1 and 12"),
    ] {
        let run = folder.run(call);
        run.printed_nothing(1);
        let sentence = format!("the dimensions are {dimensions}");
        assert!(run.refused(11).ends_with(&sentence), "{}", run.story());
        let shorter = call.replace("diff", "shorter").replace("-q ", "");
        assert_eq!(folder.run(&shorter).notes(), run.notes());
    }
}

#[test]
fn other_empty_words_are_told() {
    let folder = Folder::new();
    folder.write("a", &Picture::of(&[4], 0, vec![1, 2, 0, 0]).file([1, 0, 0]));
    folder.write("b", &Picture::of(&[4], 5, vec![1, 2, 0, 0]).file([2, 0, 0]));
    folder.write("c", &Picture::of(&[4], 5, vec![1, 5, 5, 5]).file([2, 0, 0]));
    let told = "a: not the picture of 'b': the empty words are 0 and 5\n";
    differ(&folder.run("diff a b"), "", told);
    differ(&folder.run("diff -q a b"), "", "");
    let told = format!("{}3 of 4 cells differ\n", told.replace("'b'", "'c'"));
    differ(&folder.run("diff a c"), "1 2 5\n2 0 5\n3 0 5\n", &told);
    let run = folder.run("diff --json a b");
    let summary = "{\"summary\":{\"cells\":4,\"differ\":0,\"empty_a\":0,\"empty_b\":5}}";
    assert_eq!(run.ended(1).json_lines(), [Json::of(summary)]);
}

#[test]
fn files_that_are_refused_or_not_there() {
    let folder = folder();
    folder.write("bad", b"bad");
    folder.run("diff m1.radar bad").refused(1);
    folder.run("diff bad m1.radar").refused(1);
    folder.run("diff -q bad bad").refused(1);
    folder.run("diff m1.radar missing").failed("missing");
    folder.run("diff -q missing m1.radar").failed("missing");
    folder.run("diff m1.radar").usage("diff");
    folder.run("diff m1.radar m2.radar m3.radar").usage("diff");
    folder.run_on(b"", "diff - -").usage("diff");
}

#[test]
fn columns_1_and_3_make_the_picture_of_the_second_of_the_first() {
    let folder = Folder::new();
    let cells = || 0..3000u32;
    let pictures = [
        Picture::scattered(&[5, 20, 30], 9, 10),
        Picture::scattered(&[5, 20, 30], 9, 2),
        Picture::of(&[5, 20, 30], 9, vec![9; 3000]),
        Picture::of(&[5, 20, 30], 9, cells().collect()),
        Picture::of(&[5, 20, 30], 9, cells().map(|c| c + 10).collect()),
    ];
    for (turn, a) in pictures.iter().enumerate() {
        for (round, b) in pictures.iter().enumerate() {
            let setting = ALL_KINDS[(turn * 5 + round) % ALL_KINDS.len()];
            folder.write("a", &a.file(setting));
            folder.write("b", &b.file(SETTINGS[round]));
            let hex = ["", "--hex"][round % 2];
            let run = folder.bash(&format!(
                "radar-archive diff {hex} a b 2> notes | cut -d ' ' -f 1,3 | radar-archive set a --at - -o -"
            ));
            assert_eq!(run.ended(0).out, b.file(setting), "{setting:?}");
            let count = a.words.iter().zip(&b.words).filter(|(a, b)| a != b).count();
            let notes = String::from_utf8(folder.read("notes")).expect("text");
            let told = notes.replace(',', "");
            let said = format!("{count} of 3000 cells differ\n");
            assert_eq!(told, if count > 0 { said } else { String::new() });
        }
    }
}

#[test]
fn all_cells_of_the_largest_pictures() {
    let folder = Folder::new();
    let words: Vec<u32> = (1..=1 << 24).collect();
    folder.write("raw", &raw(&words));
    let make = |empty| format!("make --dims 16x1024x1024 --kind 1 --empty {empty} raw");
    folder.run(&format!("{} -o a", make(0))).printed("");
    folder.write("raw", &vec![0; 4 << 24]);
    folder.run(&format!("{} -o b", make(0))).printed("");
    let begin = Instant::now();
    let run = folder.bash("(ulimit -v 500000; radar-archive diff a b) | tail -1");
    run.printed("15,1023,1023 16777216 0\n");
    assert_eq!(run.notes(), "16,777,216 of 16,777,216 cells differ\n");
    let run = folder.bash("radar-archive diff a b | head -1; exit ${PIPESTATUS[0]}");
    assert_eq!(run.ended(5).text(), "0,0,0 1 0\n");
    assert_eq!(run.notes(), "", "{}", run.story());
    let time = begin.elapsed();
    assert!(time < Duration::from_secs(60), "{time:?}");
}
