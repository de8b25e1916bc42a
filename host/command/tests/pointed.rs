//! Files of kind 6: changed, written, looked up, and told where they are refused.

mod support;

use support::files::{options, with_byte, with_field, Picture};
use support::Folder;

/// A line of cells with so many jumps at either width, two stored cells at each.
fn far(jumps: u32) -> Picture {
    let mut words = vec![0; 70_000 * jumps as usize];
    for jump in 0..jumps {
        words[70_000 * jump as usize] = 1 + jump;
        words[70_000 * jump as usize + 2] = 300;
    }
    Picture::of(&[70_000 * jumps], 0, words)
}

#[test]
fn what_is_wrong_is_told() {
    let folder = Folder::with_samples();
    let m6 = folder.read("m6.radar");
    let pointed = far(3).file([6, 1, 2]);
    let cases = [
        (with_byte(&m6, 3, 0), "3 setting: kind 6 has step 1 to 255, not 0 (byte 3)"),
        (
            with_field(&m6, 44, 60),
            "5 counts: the offset of the stored words is 60, not 64, behind the differences and 1 pointer (byte 44)",
        ),
        (
            with_field(&m6, 60, 1),
            "6 body: pointer 0 points to rank 1; jump 0 is at rank 0 (byte 60)",
        ),
        (
            with_field(&pointed, 74, 2),
            "6 body: pointer 1 points to rank 2; jump 2 is at rank 4 (byte 74)",
        ),
        (
            with_byte(&pointed, 3, 1),
            "5 counts: the step is 1; the rest of the file agrees with 2 (byte 3)",
        ),
    ];
    for (file, told) in cases {
        folder.write("bad", &file);
        let run = folder.run("check bad");
        assert_eq!(run.ended(1).text(), format!("bad: refused, {told}\n"));
    }
}

#[test]
fn a_setting_that_is_not_allowed_says_what_to_use() {
    let folder = Folder::with_samples();
    for (given, width, step) in [
        ("", 0, 0),
        (" --width 1", 1, 0),
        (" --width 3 --step 2", 3, 2),
    ] {
        let run = folder.run(&format!(
            "change m1.radar --kind pointed-jumps{given} -o new"
        ));
        let told = format!(
            "kind 6 pointed-jumps does not go with width {width} and step {step}; use --width 1 or 2 and --step 1 to 255"
        );
        assert_eq!(run.refused(3), told);
    }
}

#[test]
fn every_step_by_change_and_back() {
    let folder = Folder::new();
    let picture = far(5);
    folder.write("runs", &picture.file([1, 0, 0]));
    for width in [1, 2] {
        for step in [1, 2, 3, 16, 255] {
            let setting = [6, width, step];
            folder
                .run(&format!("change runs {} -o new --force", options(setting)))
                .quiet();
            assert_eq!(folder.read("new"), picture.file(setting));
            folder.run("change new --kind 1 -o back --force").quiet();
            assert_eq!(folder.read("back"), folder.read("runs"));
        }
    }
}

#[test]
fn places_and_writes() {
    let folder = Folder::new();
    let mut picture = far(4);
    folder.write("p", &picture.file([6, 2, 2]));
    folder
        .run_on(b"0\n2\n1\n210002\n", "cell p --at -")
        .printed("1\n300\n0\n300\n");
    folder
        .run_on(b"0\n2\n1\n210002\n", "rank p --at -")
        .printed("0\n1\nempty, 1 stored before\n7\n");
    folder.run("rank p --at 210000").printed("6\n");
    folder
        .run("rank p --at 279999")
        .printed("empty, 8 stored before\n");
    folder.run("count p --from 3 --to 210001").printed("5\n");
    folder.run("position p --rank 5").printed("140002 140002\n");
    // The pointers of all later jumps move by one rank.
    folder.run("set p --at 9 --word 7 -o q").quiet();
    picture.words[9] = 7;
    assert_eq!(folder.read("q"), picture.file([6, 2, 2]));
    folder
        .run("set q --at 70000 --word empty -o q --force")
        .quiet();
    picture.words[70_000] = 0;
    assert_eq!(folder.read("q"), picture.file([6, 2, 2]));
}
